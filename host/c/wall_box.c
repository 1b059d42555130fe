/* A wall box's first minute, in C. `examples/wall_box.rs` does the same in Rust and prints the same lines. */
#include "pikurandal.h"

#include <stdio.h>
#include <stdlib.h>

static const uint8_t destination[6] = {2, 0, 0, 0, 0, 1};
static const uint8_t source[6] = {2, 0, 0, 0, 0, 2};
static const uint8_t priority = 3;

static struct pik_table table;
static struct pik_buffers buffers;

static void print_handles(const char *what, const uint32_t *handles, size_t count)
{
    printf("%s [", what);
    for (size_t i = 0; i < count; i++)
        printf(i == 0 ? "%u" : ", %u", (unsigned)handles[i]);
    printf("], ");
}

static void accept(uint8_t number)
{
    if (number != PIK_ACCEPTED) {
        printf("refused by %d\n", number);
        exit(1);
    }
}

static void show(const char *what, struct pik_answer answer)
{
    accept(answer.number);
    printf("%s: ", what);
    print_handles("up", buffers.up, answer.up);
    print_handles("returned", buffers.returned, answer.returned);
    printf("asked for [");
    for (size_t i = 0; i < answer.nack; i++)
        printf(i == 0 ? "%u" : ", %u", (unsigned)buffers.nack[i]);
    printf("], lost %lu\n", (unsigned long)answer.lost);
}

/* The numbers from the oldest missing on, and what the channel knows of each. */
static void show_record(const char *what)
{
    uint8_t waits[PIK_BUFFER];
    uint64_t values[PIK_BUFFER];
    struct pik_view view = pik_look(PIK_TABLE(&table), destination, source, priority, waits, PIK_BUFFER, values, PIK_BUFFER);
    accept(view.number);
    printf("%s: current %u, oldest missing %u, latest time %lu", what, (unsigned)view.current, (unsigned)view.oldest, (unsigned long)view.latest);
    for (size_t i = 0; i < view.span; i++)
        printf(waits[i] ? ", %u waits with %lu" : ", %u missing since %lu", (unsigned)((view.oldest + i) % 4096), (unsigned long)values[i]);
    printf("\n");
}

static struct pik_answer data(uint64_t time, uint16_t number, uint32_t handle)
{
    return pik_data(PIK_TABLE(&table), PIK_BUFFERS(&buffers), destination, source, priority, time, number, handle);
}

static void channel(void)
{
    accept(pik_empty(PIK_TABLE(&table))); /* so a table may lie in any memory */
    show("frame 10 opens the channel", data(100, 10, 1010));
    show("frame 12 comes before 11", data(101, 12, 1012));
    show_record("a look at the channel");
    show("frame 12 comes again", data(102, 12, 5012));
    show("frame 11 fills the gap", data(110, 11, 1011));
    show("a reminder of 14", pik_reminder(PIK_TABLE(&table), PIK_BUFFERS(&buffers), destination, source, priority, 120, 14));
    show("frame 14 comes", data(121, 14, 1014));
    show("150 ticks later", pik_tick(PIK_TABLE(&table), PIK_BUFFERS(&buffers), destination, source, priority, 270));
    show("frame 2000 restarts", data(280, 2000, 3000));
    show("the channel is closed", pik_close(PIK_TABLE(&table), PIK_BUFFERS(&buffers), destination, source, priority, 290));
    struct pik_answer late = pik_tick(PIK_TABLE(&table), PIK_BUFFERS(&buffers), destination, source, priority, 300);
    printf("a tick after that: refused by %d\n", late.number);
}

static const char *const timers[] = {"Kept", "Started", "Cancelled"};

static void print_sets(struct pik_frame frame)
{
    printf("OldestTx %08x, CurrentTx %08x, CurrentRx %08x", (unsigned)frame.oldest_tx, (unsigned)frame.current_tx, (unsigned)frame.current_rx);
}

static struct pik_station show_period(const char *what, struct pik_station station)
{
    struct pik_station_answer ended = pik_station_period(station);
    printf("%s: sends ", what);
    if (ended.sends)
        print_sets(ended.frame);
    else
        printf("nothing");
    printf(", timer %s\n", timers[ended.timer]);
    return ended.station;
}

static void station(void)
{
    struct pik_station_answer used = pik_station_use(pik_station_fresh(0x01), 0x04);
    printf("flags 4 used: sends %s, timer %s\n", used.sends ? "true" : "false", timers[used.timer]);
    struct pik_frame heard = {.oldest_tx = 0x10, .current_tx = 0x22, .current_rx = 0};
    struct pik_station_answer received = pik_station_receive(used.station, 1, heard);
    accept(received.number);
    printf("a frame received: really new %08x\n", (unsigned)received.reported);
    struct pik_station now = show_period("the period ends", received.station);
    now = show_period("the next one ends", now);
    printf("the timer runs out: sends ");
    print_sets(pik_station_frame(now));
    printf("\n");
    show_period("one more period ends", now);
}

static void request(void)
{
    static const uint8_t addresses[6] = {3, 0, 0, 0, 0, 9};
    struct pik_request asked = {
        {2, 0, 0, 0, 0, 1}, {2, 0, 0, 0, 0, 2}, .bands = 2, .pe1 = 4, .rank1 = 2, .pe2 = 12, .rank2 = 1,
    };
    uint8_t frame[80];
    struct pik_written written = pik_rate_write(frame, sizeof frame, asked, addresses, sizeof addresses);
    accept(written.number);
    struct pik_reading reading = pik_rate_read(frame, written.count);
    accept(reading.number);
    uint8_t chosen = pik_rate_chosen(reading.request);
    uint8_t pe = chosen == 2 ? reading.request.pe2 : reading.request.pe1;
    printf("a rate request of %lu octets: band %d at %d Mbit/s, address octets [", (unsigned long)written.count, chosen, pik_rate_of(pe));
    for (size_t i = 0; i < reading.extent; i++)
        printf(i == 0 ? "%d" : ", %d", frame[reading.start + i]);
    printf("]\n");
}

int main(void)
{
    channel();
    station();
    request();
    return 0;
}
