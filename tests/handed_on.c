// The call that hands on, from C: by what it is told alone it writes nothing but zeros. Argument: a session whose first port comes to release
// (examples/sound-port.session). Its records up to the first fresh SPDU are taken and each call below is tried there, by the tables and by the bit shift.
#include <stdio.h>
#include <string.h>

#include "../include/whakelouna.h"

#define HEADER 9
#define ROOM 40
#define UNTOUCHED 0x5A

static const uint8_t zeros[ROOM];
static int tried, failed;

struct lent {
    bool shift;
    uint8_t port;
    bool device;
    uint8_t mark;
    const uint8_t *spdu, *safe;
    size_t spdu_length, safe_length, room;
};

// The answer, how many octets are told, and these octets at the front of a buffer that else stays as it was.
static void expect(const char *name, struct whakelouna_bench bench, struct lent lent, uint8_t number, const uint8_t *part, size_t length)
{
    uint8_t expected[ROOM], out[ROOM];
    memset(out, UNTOUCHED, ROOM);
    memset(expected, UNTOUCHED, ROOM);
    memcpy(expected, part, length);
    struct whakelouna_handed_told told = whakelouna_handed_on(lent.shift, bench, lent.port, lent.device, lent.mark,
        lent.spdu, lent.spdu_length, lent.safe, lent.safe_length, out, lent.room);
    tried++;
    if (told.number != number || told.octets != length || memcmp(out, expected, ROOM) != 0) {
        printf("handed_on: %s, %s: answer %u, %zu octets\n", name, lent.shift ? "by shift" : "by tables", told.number, told.octets);
        failed++;
    }
}

// Takes records until a response at a port is handed on, and tries the call there.
static int run(bool shift, const uint8_t *s, size_t size)
{
    struct whakelouna_bench bench = whakelouna_new_bench();
    size_t at = 0;
    while (at + HEADER <= size && at + HEADER + s[at + 8] <= size) {
        const uint8_t *header = s + at, *octets = header + HEADER;
        uint8_t kind = header[2], port = header[3];
        uint32_t clock = (uint32_t)header[4] << 24 | (uint32_t)header[5] << 16 | (uint32_t)header[6] << 8 | header[7];
        size_t length = header[8];
        struct whakelouna_bench before = bench;
        struct whakelouna_params params = bench.ports[port - 1].setting.params;
        size_t process = length - (params.FSP_ProtMode == 1 ? 4 : 6);
        struct whakelouna_bench_told told = kind == 1
            ? whakelouna_set_parameters(shift, bench, port, clock, octets, length)
            : whakelouna_receive_response(shift, bench, port, clock, octets, length, zeros, process);
        bench = told.bench;
        at += HEADER + length;
        if (kind != 2 || told.reply.master != 0) {
            continue;
        }
        struct lent lent = {shift, port, false, 0, octets, zeros, length, process, ROOM};
        uint8_t other[ROOM], damaged[ROOM], ones[ROOM];
        memset(ones, 0xFF, ROOM);
        memcpy(damaged, octets, length);
        damaged[0] ^= 1;
        expect("the SPDU that was admitted", bench, lent, 0, octets, process);
        expect("where the port did not release yet", before, lent, 0, zeros, process);
        lent.spdu = damaged;
        expect("a damaged SPDU", bench, lent, 0, zeros, process);
        lent.spdu_length = length - 1;
        expect("a damaged SPDU of another length", bench, lent, 10, other, 0);
        lent.spdu = octets;
        lent.spdu_length = length;
        lent.safe = ones;
        expect("safe values FF", bench, lent, 7, other, 0);
        lent.mark = 2;
        expect("safe values FF by their mark", bench, lent, 7, other, 0);
        lent.mark = 0;
        lent.safe = zeros;
        lent.safe_length = process + 1;
        expect("a safe value too many", bench, lent, 7, other, 0);
        lent.safe_length = process;
        lent.room = process - 1;
        expect("a buffer one octet short", bench, lent, 7, other, 0);
        lent.room = ROOM;
        lent.port = 0;
        expect("port 0", bench, lent, 8, other, 0);
        lent.port = 9;
        expect("port 9", bench, lent, 8, other, 0);
        lent.port = 8;
        expect("a port that does not run", bench, lent, 9, other, 0);
        lent.port = port;
        lent.device = true;
        lent.mark = 1;
        lent.safe_length = params.SPDUOutLength - (params.FSP_ProtMode == 1 ? 4 : 6);
        expect("the FS-Device, which does not release", bench, lent, 0, zeros, lent.safe_length);
        lent.mark = 3;
        expect("no mark", bench, lent, 0, other, 0);
        return 0;
    }
    printf("handed_on: no SPDU was handed on\n");
    return 1;
}

int main(int count, char **arguments)
{
    static uint8_t session[65536];
    FILE *file = count == 2 ? fopen(arguments[1], "rb") : NULL;
    if (file == NULL) {
        printf("handed_on: no session\n");
        return 1;
    }
    size_t size = fread(session, 1, sizeof session, file);
    fclose(file);
    int none = run(false, session, size) | run(true, session, size);
    printf("handed_on: %d calls tried, %d differ\n", tried, failed);
    return none || failed;
}
