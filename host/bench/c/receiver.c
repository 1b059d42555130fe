/* The receiver over the lent table, in place (document 01, 'The channel table', 'The four channel events', 'Numbers the box may answer with'). */
#include "inplace.h"

#include <string.h>

enum { PLACES = 64, SLOTS = 32, PLACE_WORDS = 35, TIMES = 3, RING = 4096, REACH = 64, WINDOW = 32, PATIENCE = 150, NOWHERE = -1 };

/* One place of the table: C, M, the latest time and the times of missing numbers; their handles; their marks. */
struct place {
    uint64_t *words;
    uint32_t *handles;
    uint8_t *marks;
};

static inline struct pik_answer refused(uint8_t number)
{
    return (struct pik_answer){.number = number};
}

/* How many steps forward lead from one number to another. */
static inline unsigned steps(unsigned from, unsigned to)
{
    return (to - from) % RING;
}

static inline unsigned slot(unsigned number)
{
    return number % SLOTS;
}

/* An address as a number. The last four octets are one group and the first two another, so that a compiler can load each group at once. */
static inline uint64_t address(const uint8_t octets[6])
{
    uint64_t two = (uint64_t)octets[0] << 8 | octets[1];
    uint64_t four = (uint64_t)octets[2] << 24 | (uint64_t)octets[3] << 16 | (uint64_t)octets[4] << 8 | octets[5];
    return two << 32 | four;
}

/* The first place with this key. The source is tested first, as in the archive: it is what most channels of a table differ in. */
static inline int find(const uint64_t *keys, uint64_t first, uint64_t second)
{
    for (int i = 0; i < PLACES; i++)
        if (keys[2 * i + 1] == second && keys[2 * i] == first)
            return i;
    return NOWHERE;
}

static inline struct place place_at(uint64_t *words, uint32_t *handles, uint8_t *marks, int i)
{
    return (struct place){words + PLACE_WORDS * i, handles + SLOTS * i, marks + SLOTS * i};
}

/* The place's window: M, and how many numbers there are from M to C. */
static inline unsigned span(const uint64_t *words)
{
    return steps((unsigned)words[1], (unsigned)words[0] + 1);
}

static inline bool broken(struct place p)
{
    if (p.words[0] >= RING || p.words[1] >= RING)
        return true;
    unsigned oldest = (unsigned)p.words[1], n = span(p.words);
    if (n > WINDOW || (n > 0 && p.marks[slot(oldest)]))
        return true;
    uint64_t before = 0;
    for (unsigned i = 0; i < n; i++) {
        unsigned j = slot(oldest + i);
        if (p.marks[j])
            continue;
        if (p.words[TIMES + j] < before)
            return true;
        before = p.words[TIMES + j];
    }
    return before > p.words[2];
}

static inline bool lent(size_t keys, size_t words, size_t handles, size_t marks, size_t up, size_t returned, size_t nack)
{
    return up >= PIK_BUFFER && returned >= PIK_BUFFER && nack >= PIK_BUFFER && keys == PIK_KEYS && words == PIK_WORDS && handles == PIK_HANDLES
        && marks == PIK_MARKS;
}

/* Numbers 6 and 7. */
static inline uint8_t judge(struct place p, uint64_t time)
{
    if (broken(p))
        return PIK_BROKEN;
    return time < p.words[2] ? PIK_EARLY : PIK_ACCEPTED;
}

/* Where the place of a channel is that has to be open; below 0 it is the number that refuses the call: 3, 4, 6 or 7. */
static inline int known_place(const uint64_t *keys, uint64_t *words, uint32_t *handles, uint8_t *marks, const uint8_t destination[6],
                              const uint8_t source[6], uint8_t priority, uint64_t time)
{
    if (priority > 7)
        return -PIK_NO_PRIORITY;
    int i = find(keys, address(destination) * 16 + priority + 1, address(source));
    if (i == NOWHERE)
        return -PIK_NO_CHANNEL;
    uint8_t refusal = judge(place_at(words, handles, marks, i), time);
    return refusal ? -refusal : i;
}

/* The waiting handles among n numbers from `from` on, into `out`. */
static inline size_t hand(struct place p, unsigned from, unsigned n, uint32_t *out)
{
    size_t count = 0;
    for (unsigned i = 0; i < n; i++) {
        unsigned j = slot(from + i);
        if (p.marks[j])
            out[count++] = p.handles[j];
    }
    return count;
}

/* M moves on while it waits, and goes up. */
static inline void settle(struct place p, uint32_t *up, struct pik_answer *answer)
{
    unsigned oldest = (unsigned)p.words[1];
    for (unsigned n = span(p.words); n > 0 && p.marks[slot(oldest)]; n--) {
        up[answer->up++] = p.handles[slot(oldest)];
        oldest = (oldest + 1) % RING;
    }
    p.words[1] = oldest;
}

/* d numbers come after C: all of them missing, or all but the last, which waits. What no longer fits the window is passed first. */
static inline struct pik_answer ahead(struct place p, unsigned d, const uint32_t *handle, uint64_t time, uint32_t *up, uint16_t *nack)
{
    struct pik_answer answer = {0};
    unsigned current = (unsigned)p.words[0], oldest = (unsigned)p.words[1], n = span(p.words);
    unsigned over = n + d > WINDOW ? n + d - WINDOW : 0;
    unsigned old = over < n ? over : n;
    answer.up = hand(p, oldest, old, up);
    answer.lost = over - answer.up;
    for (unsigned i = over - old + 1; i <= (handle ? d - 1 : d); i++) {
        unsigned number = (current + i) % RING;
        p.words[TIMES + slot(number)] = time;
        p.marks[slot(number)] = 0;
        nack[answer.nack++] = (uint16_t)number;
    }
    current = (current + d) % RING;
    if (handle) {
        p.handles[slot(current)] = *handle;
        p.marks[slot(current)] = 1;
    }
    p.words[0] = current;
    p.words[1] = (oldest + over) % RING;
    p.words[2] = time;
    settle(p, up, &answer);
    return answer;
}

/* A number from C - 64 to C: it fills a gap, or it is here already. */
static inline struct pik_answer behind(struct place p, unsigned number, uint32_t handle, uint64_t time, uint32_t *up, uint32_t *returned)
{
    struct pik_answer answer = {0};
    unsigned j = slot(number);
    p.words[2] = time;
    if (steps((unsigned)p.words[1], number) >= span(p.words) || p.marks[j]) {
        returned[0] = handle;
        answer.returned = 1;
        return answer;
    }
    p.handles[j] = handle;
    p.marks[j] = 1;
    settle(p, up, &answer);
    return answer;
}

/* Nothing is missing up to this number, which goes up at once. */
static inline struct pik_answer hand_up(struct place p, unsigned number, uint32_t handle, uint64_t time, uint32_t *up)
{
    p.words[0] = number;
    p.words[1] = (number + 1) % RING;
    p.words[2] = time;
    up[0] = handle;
    return (struct pik_answer){.up = 1};
}

static inline struct pik_answer restart(struct place p, unsigned number, uint32_t handle, uint64_t time, uint32_t *up, uint32_t *returned)
{
    size_t count = hand(p, (unsigned)p.words[1], span(p.words), returned);
    struct pik_answer answer = hand_up(p, number, handle, time, up);
    answer.returned = count;
    return answer;
}

struct pik_answer PEER_FN(data)(uint64_t *keys, size_t keys_length, uint64_t *words, size_t words_length, uint32_t *handles,
                                size_t handles_length, uint8_t *marks, size_t marks_length, uint32_t *up, size_t up_length, uint32_t *returned,
                                size_t returned_length, uint16_t *nack, size_t nack_length, const uint8_t destination[6],
                                const uint8_t source[6], uint8_t priority, uint64_t time, uint16_t number, uint32_t handle)
{
    if (!lent(keys_length, words_length, handles_length, marks_length, up_length, returned_length, nack_length))
        return refused(PIK_MISFIT);
    if (number >= RING)
        return refused(PIK_NO_NUMBER);
    if (priority > 7)
        return refused(PIK_NO_PRIORITY);
    uint64_t first = address(destination) * 16 + priority + 1, second = address(source);
    int i = find(keys, first, second);
    if (i == NOWHERE) {
        for (i = 0; i < PLACES && keys[2 * i]; i++)
            ;
        if (i == PLACES)
            return refused(PIK_NO_PLACE);
        keys[2 * i] = first;
        keys[2 * i + 1] = second;
        return hand_up(place_at(words, handles, marks, i), number, handle, time, up);
    }
    struct place p = place_at(words, handles, marks, i);
    uint8_t refusal = judge(p, time);
    if (refusal)
        return refused(refusal);
    unsigned d = steps((unsigned)p.words[0], number);
    if (d == 1 && span(p.words) == 0)
        return hand_up(p, number, handle, time, up);
    if (d >= 1 && d <= REACH)
        return ahead(p, d, &handle, time, up, nack);
    if (d == 0 || d >= RING - REACH)
        return behind(p, number, handle, time, up, returned);
    return restart(p, number, handle, time, up, returned);
}

struct pik_answer PEER_FN(reminder)(const uint64_t *keys, size_t keys_length, uint64_t *words, size_t words_length, uint32_t *handles,
                                    size_t handles_length, uint8_t *marks, size_t marks_length, uint32_t *up, size_t up_length,
                                    uint32_t *returned, size_t returned_length, uint16_t *nack, size_t nack_length,
                                    const uint8_t destination[6], const uint8_t source[6], uint8_t priority, uint64_t time, uint16_t number)
{
    (void)returned;
    if (!lent(keys_length, words_length, handles_length, marks_length, up_length, returned_length, nack_length))
        return refused(PIK_MISFIT);
    if (number >= RING)
        return refused(PIK_NO_NUMBER);
    int i = known_place(keys, words, handles, marks, destination, source, priority, time);
    if (i < 0)
        return refused((uint8_t)-i);
    struct place p = place_at(words, handles, marks, i);
    unsigned d = steps((unsigned)p.words[0], number);
    if (d >= 1 && d <= REACH)
        return ahead(p, d, NULL, time, up, nack);
    if (d > REACH && d < RING - REACH)
        return refused(PIK_FAR);
    p.words[2] = time;
    return (struct pik_answer){.number = PIK_ACCEPTED};
}

struct pik_answer PEER_FN(tick)(const uint64_t *keys, size_t keys_length, uint64_t *words, size_t words_length, uint32_t *handles,
                                size_t handles_length, uint8_t *marks, size_t marks_length, uint32_t *up, size_t up_length, uint32_t *returned,
                                size_t returned_length, uint16_t *nack, size_t nack_length, const uint8_t destination[6],
                                const uint8_t source[6], uint8_t priority, uint64_t time)
{
    (void)returned;
    (void)nack;
    if (!lent(keys_length, words_length, handles_length, marks_length, up_length, returned_length, nack_length))
        return refused(PIK_MISFIT);
    int i = known_place(keys, words, handles, marks, destination, source, priority, time);
    if (i < 0)
        return refused((uint8_t)-i);
    struct place p = place_at(words, handles, marks, i);
    struct pik_answer answer = {0};
    unsigned oldest = (unsigned)p.words[1];
    for (unsigned n = span(p.words); n > 0; n--) {
        unsigned j = slot(oldest);
        if (p.marks[j])
            up[answer.up++] = p.handles[j];
        else if (time >= PATIENCE && p.words[TIMES + j] <= time - PATIENCE)
            answer.lost++;
        else
            break;
        oldest = (oldest + 1) % RING;
    }
    p.words[1] = oldest;
    p.words[2] = time;
    return answer;
}

struct pik_answer PEER_FN(close)(uint64_t *keys, size_t keys_length, uint64_t *words, size_t words_length, uint32_t *handles,
                                 size_t handles_length, uint8_t *marks, size_t marks_length, uint32_t *up, size_t up_length,
                                 uint32_t *returned, size_t returned_length, uint16_t *nack, size_t nack_length, const uint8_t destination[6],
                                 const uint8_t source[6], uint8_t priority, uint64_t time)
{
    (void)up;
    (void)nack;
    if (!lent(keys_length, words_length, handles_length, marks_length, up_length, returned_length, nack_length))
        return refused(PIK_MISFIT);
    int i = known_place(keys, words, handles, marks, destination, source, priority, time);
    if (i < 0)
        return refused((uint8_t)-i);
    struct place p = place_at(words, handles, marks, i);
    struct pik_answer answer = {0};
    answer.returned = hand(p, (unsigned)p.words[1], span(p.words), returned);
    memset(keys + 2 * i, 0, 2 * sizeof *keys);
    memset(p.words, 0, PLACE_WORDS * sizeof *p.words);
    memset(p.handles, 0, SLOTS * sizeof *p.handles);
    memset(p.marks, 0, SLOTS);
    return answer;
}
