// Results can be compared and saved octet for octet: each call is made four times, with another filling of the stack and of the result's place before it,
// and the results have to be the same in every octet. In the last two calls `shift` is true: what is signed by the bit shift is what is signed by tables.
#include <stdio.h>
#include <string.h>

#include "../include/whakelouna.h"

static bool shift;
static int compared, failed;

static __attribute__((noinline)) void fill_stack(int octet)
{
    volatile uint8_t stack[65536];
    for (size_t i = 0; i < sizeof stack; i++) {
        stack[i] = (uint8_t)octet;
    }
}

static void expect_same(const char *name, const void *a, const void *b, size_t size)
{
    compared++;
    if (memcmp(a, b, size) != 0) {
        printf("octets: two results of %s differ\n", name);
        failed++;
    }
}

#define SAME(type, call)                              \
    do {                                              \
        static type results[4];                       \
        for (int turn = 0; turn < 4; turn++) {        \
            shift = turn >= 2;                        \
            memset(&results[turn], 0x33 << turn, sizeof results[turn]); \
            fill_stack(0x55 << turn);                 \
            results[turn] = (call);                   \
        }                                             \
        for (int turn = 1; turn < 4; turn++) {        \
            expect_same(#call, &results[0], &results[turn], sizeof results[0]); \
        }                                             \
    } while (0)

// The first block of examples/sound-port.session, which port 1 takes, and a response to it that is released and so counted, each in its record.
static const uint8_t session[] = {
    0x53, 0x4C, 0x01, 0x01, 0x00, 0x00, 0x03, 0xE8, 0x30,
    0x80, 0x01, 0x31, 0x00, 0x00, 0x00, 0x00, 0x01, 0x00, 0x00, 0x00, 0x01, 0x00, 0x00, 0x00, 0x00, 0x00, 0x00, 0x00, 0x00, 0x00, 0x00, 0x01, 0x4E,
    0xAB, 0x01, 0x01, 0x00, 0x64, 0x8E, 0x54, 0x00, 0x00, 0x00, 0x00, 0xF5, 0x99, 0x01, 0x06, 0x10, 0x02, 0x00, 0x00, 0x05, 0x08, 0x01, 0x00, 0x00,
    0x53, 0x4C, 0x02, 0x01, 0x00, 0x00, 0x03, 0xF1, 0x06,
    0x00, 0x00, 0x01, 0xE0, 0xB8, 0x0D,
};
static const uint8_t *const block = session + 9, *const spdu = session + 66;
static const uint8_t zeros[32];
static uint8_t out[1152];

// By `shift`: the tables, and for the bit shift, which reads none, zeros.
static uint16_t short_tables[2][256];
static uint32_t long_tables[2][16];

int main(void)
{
    whakelouna_table16(short_tables[0]);
    whakelouna_table32(long_tables[0]);
    struct whakelouna_bench bench = whakelouna_new_bench();
    struct whakelouna_bench running = whakelouna_set_parameters(false, bench, 1, 1000, block, 48).bench;
    struct whakelouna_histogram histogram = whakelouna_cleared();
    struct whakelouna_params params = running.ports[0].setting.params;
    struct whakelouna_response response = whakelouna_read_response_by(false, short_tables[0], long_tables[0], params, spdu, 6);
    struct whakelouna_request request = whakelouna_read_request_by(false, short_tables[0], long_tables[0], params, spdu, 5);
    struct whakelouna_fs_master master = whakelouna_master_first(1);
    struct whakelouna_fs_device device = whakelouna_device_first(1);
    struct whakelouna_state state = whakelouna_session_start();

    SAME(struct whakelouna_histogram, whakelouna_cleared());
    SAME(struct whakelouna_histogram, whakelouna_counted(histogram, 100, 7));
    SAME(struct whakelouna_trend_told, whakelouna_trend_of(histogram));
    SAME(struct whakelouna_block_answer, whakelouna_judge_block(shift, block, 48, 1));
    SAME(struct whakelouna_block_answer, whakelouna_judge_block(shift, zeros, 32, 1));
    SAME(struct whakelouna_response, whakelouna_read_response_by(shift, short_tables[shift], long_tables[shift], params, spdu, 6));
    SAME(struct whakelouna_request, whakelouna_read_request_by(shift, short_tables[shift], long_tables[shift], params, spdu, 5));
    SAME(struct whakelouna_fs_master, whakelouna_master_first(1));
    SAME(struct whakelouna_master_outcome, whakelouna_master_response(master, 100, 2, response));
    SAME(struct whakelouna_master_outcome, whakelouna_master_clock(master, 100, 2));
    SAME(struct whakelouna_fs_device, whakelouna_device_first(1));
    SAME(struct whakelouna_device_outcome, whakelouna_device_request(device, 100, 2, request));
    SAME(struct whakelouna_bench, whakelouna_new_bench());
    SAME(struct whakelouna_bench_told, whakelouna_set_parameters(shift, bench, 1, 2, block, 48));
    SAME(struct whakelouna_bench_told, whakelouna_set_parameters(shift, bench, 1, 2, zeros, 32));
    SAME(struct whakelouna_bench_told, whakelouna_receive_response(shift, running, 1, 1009, spdu, 6, zeros, 2));
    SAME(struct whakelouna_bench_told, whakelouna_receive_request(shift, running, 1, 1009, spdu, 5, zeros, 1));
    SAME(struct whakelouna_bench_told, whakelouna_clock(bench, 1, 2, zeros, 1, zeros, 1));
    SAME(struct whakelouna_split_told, whakelouna_split(bench, 1, block, 48));
    SAME(struct whakelouna_handed_told, whakelouna_handed_on(shift, bench, 1, false, 2, spdu, 6, zeros, 2, out, 2));
    SAME(struct whakelouna_handed_told, whakelouna_handed_on(shift, running, 1, false, 0, spdu, 6, zeros, 2, out, 2));
    SAME(struct whakelouna_trend_told, whakelouna_trend(bench, 1));
    SAME(struct whakelouna_bins_told, whakelouna_bins(bench, 1));
    SAME(struct whakelouna_master_told, whakelouna_master(bench, 1));
    SAME(struct whakelouna_device_told, whakelouna_device(bench, 1));
    SAME(struct whakelouna_state, whakelouna_session_start());
    SAME(struct whakelouna_fed_told, whakelouna_session_feed(shift, state, session, sizeof session, out, sizeof out));
    printf("octets: %d results compared, %d differ\n", compared, failed);
    return failed != 0;
}
