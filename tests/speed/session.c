// The session program (document 01) in plain C, as one would write it for the job: static tables, one pass over standard input. What
// `portbench`'s speed is held to. Of a port it keeps what its lines need: no bins and no sum; no signal that only says what is released; and
// no FS-Device, since no record of a session reaches that end. With WHOLE_PORT it keeps bins, sum and every variable of 000 Table 38, as
// `portbench` does.

#include <stdbool.h>
#include <stdint.h>
#include <stdio.h>
#include <string.h>
#include <unistd.h>

#include "signature.c"

enum { TAKEN, BLOCK_SIZE, BLOCK_ID, PORT_MODE, NO_SCL, FIELD_RANGE, SIGNATURE, NO_PORT = 8, NOT_RUNNING, SPDU_LENGTH, PORT_MISMATCH = 12, RECORD };
enum { PARAMETERS = 1, SPDU, CLOCK, OPERATOR };
enum { HEAD = 9, BLOCK = 48, READ = 1 << 16, LONGEST = HEAD + 255 };

// A port and its FS-Master (000 Table 38), at rest in state 2, 5 or 7.
struct port {
    bool running, runs, previous;
    bool setSD_C, ChFAck_C, ChFAck_C_e;
    uint8_t mode, length, state, MCount, carried, awaited;
    uint16_t w, lowest, highest;
    uint32_t MTimer, start, total;
#ifdef WHOLE_PORT
    bool setSD, SDset_S, ChFAckReq, ChFAckReq_S, released;
    uint32_t bins[32];
    uint64_t sum;
#endif
};

static struct port ports[8];

static uint32_t number(const uint8_t *octets, int count)
{
    uint32_t value = 0;
    for (int i = 0; i < count; i++)
        value = value << 8 | octets[i];
    return value;
}

// The parameter block.

static bool length_fits(const uint8_t *b, int other_offset, int offset)
{
    int process = b[offset + 2] + 2 * b[offset + 3] + 4 * b[offset + 4];
    int safety_octets = b[26] == 1 ? 4 : 6;
    int most = b[26] == 1 ? 3 : 25;
    return b[offset] >= 5 && b[offset] + (b[other_offset] & 0x3F) <= 32 && b[offset] == safety_octets + process && process <= most;
}

static bool fields_fit(const uint8_t *b)
{
    uint32_t device = number(b + 8, 4);
    return b[3] <= 4 && (b[4] == 0 || b[4] == 5) && number(b + 6, 2) != 0 && device != 0 && device <= 16777215
        && !((b[12] | b[13]) & 0xC0) && b[22] != 0 && b[25] != 0 && (b[26] == 1 || b[26] == 2) && number(b + 27, 2) != 0
        && b[37] == 1 && length_fits(b, 12, 38) && b[39] <= 8 * b[40] && length_fits(b, 13, 43) && b[44] <= 8 * b[45];
}

static bool signatures_hold(const uint8_t *b)
{
    return number(b + 23, 2) == reference_signature16(0, b + 14, 9) && number(b + 29, 2) == reference_signature16(0, b + 37, 11)
        && number(b + 35, 2) == reference_signature16(0, b + 25, 10);
}

static int judge_block(uint8_t port, const uint8_t *b, int length)
{
    if (port == 0 || port > 8)
        return NO_PORT;
    if (length != BLOCK)
        return BLOCK_SIZE;
    if (number(b, 2) != 0x8001)
        return BLOCK_ID;
    if (b[2] <= 4 || b[2] == 51)
        return NO_SCL;
    if (b[2] != 49 && b[2] != 50)
        return PORT_MODE;
    if (!fields_fit(b))
        return FIELD_RANGE;
    if (b[22] != port)
        return PORT_MISMATCH;
    return signatures_hold(b) ? TAKEN : SIGNATURE;
}

static int parameters(uint8_t port, uint32_t at, const uint8_t *b, int length)
{
    int answer = judge_block(port, b, length);
    if (answer == TAKEN)
        ports[port - 1] = (struct port) {
            .running = true,
            .mode = b[26],
            .length = b[38],
            .state = 2,
            .w = (uint16_t)number(b + 27, 2),
            .start = at,
#ifdef WHOLE_PORT
            .setSD = true,
            .SDset_S = true,
#endif
        };
    return answer;
}

// The FS-Master.

static void send_count(struct port *p, uint8_t count, uint32_t at)
{
    if (count != p->MCount)
        p->start = at;
    p->MCount = count;
    p->MTimer = at;
    p->runs = true;
}

// Release, or not, and the requests to acknowledge that a row raises or clears: the rest of its action.
static void signal(struct port *p, bool release, bool SDset, int request)
{
#ifdef WHOLE_PORT
    p->released = release && !SDset && !p->setSD_C;
    p->SDset_S = !p->released;
    p->setSD = !release || p->setSD_C;
    if (request >= 0)
        p->ChFAckReq = p->ChFAckReq_S = request;
#else
    (void)p, (void)release, (void)SDset, (void)request;
#endif
}

// T8, T14
static void judge_watchdog(struct port *p, uint32_t at)
{
    if (!p->runs || at - p->MTimer <= p->w)
        return;
    if (p->state == 7)
        p->ChFAck_C_e = false;
    signal(p, false, true, p->state == 7 ? 0 : -1);
    p->state = 7;
    send_count(p, 0, at);
}

// The signature from seed 1, a zero replaced, stands behind the contents.
static bool signature_holds(const struct port *p, const uint8_t *spdu, int contents)
{
    if (p->mode == 1) {
        uint16_t signature = reference_signature16(1, spdu, contents);
        return number(spdu + contents, 2) == (signature ? signature : 1);
    }
    uint32_t signature = reference_signature32(1, spdu, contents);
    return number(spdu + contents, 4) == (signature ? signature : 1);
}

static bool all_zero(const uint8_t *octets, int length)
{
    for (int i = 0; i < length; i++)
        if (octets[i])
            return false;
    return true;
}

static void tally(struct port *p, uint32_t t)
{
    if (t > p->w || p->total == UINT32_MAX)
        return;
    if (p->total == 0 || t < p->lowest)
        p->lowest = (uint16_t)t;
    if (p->total == 0 || t > p->highest)
        p->highest = (uint16_t)t;
    p->total++;
#ifdef WHOLE_PORT
    p->sum += t;
    p->bins[t * 32 / (p->w + 1u)]++;
#endif
}

// T3, T6 and T10, then T4, T7, T11, T12 or T13
static void take_response(struct port *p, uint8_t port, uint32_t at, const uint8_t *spdu)
{
    int contents = p->length - (p->mode == 1 ? 2 : 4);
    uint8_t status = spdu[contents - 1];
    uint8_t count = status >> 5;
    uint8_t awaited = 7 - p->MCount;
    bool old = p->previous && (count == p->carried || count == p->awaited);
    bool expected = count == awaited;
    bool admitted = p->state == 2 ? expected : !old || (p->state == 7 && p->MCount == 0 && expected);
    if (!admitted || all_zero(spdu, p->length))
        return;
    p->previous = true;
    p->carried = count;
    p->awaited = awaited;
    bool passes = expected && spdu[contents - 2] == port && signature_holds(p, spdu, contents);
    bool faults = !passes || status & 3;
    bool acknowledged = p->state != 7 || (p->ChFAck_C && p->ChFAck_C_e);
    if (!faults && acknowledged && !(status & 4) && !p->setSD_C)
        tally(p, at - p->start);
    if (p->state != 7) {
        signal(p, !faults, status & 4, -1);
        p->state = faults ? 7 : 5;
    } else if (faults) {
        signal(p, false, true, 0);
        p->ChFAck_C_e = false;
    } else if (acknowledged) {
        signal(p, true, status & 4, 0);
        p->ChFAck_C_e = false;
        p->state = 5;
    } else {
        signal(p, false, true, 1);
        if (!p->ChFAck_C)
            p->ChFAck_C_e = true;
    }
    send_count(p, p->MCount == 7 ? 1 : p->MCount + 1, at);
}

// Records.

static int happening(uint8_t kind, uint8_t port, uint32_t at, const uint8_t *octets, int length)
{
    if (port == 0 || port > 8)
        return NO_PORT;
    struct port *p = &ports[port - 1];
    if (!p->running)
        return NOT_RUNNING;
    if (kind == SPDU && length != p->length)
        return SPDU_LENGTH;
    judge_watchdog(p, at);
    if (kind == SPDU)
        take_response(p, port, at, octets);
    if (kind == OPERATOR) {
        p->setSD_C = octets[0] & 1;
        p->ChFAck_C = octets[0] & 2;
    }
    return TAKEN;
}

// Mark, kind and length of a whole head.
static bool head_holds(const uint8_t *head)
{
    if (head[0] != 0x53 || head[1] != 0x4C)
        return false;
    switch (head[2]) {
    case PARAMETERS:
    case SPDU:
        return true;
    case CLOCK:
        return head[8] == 0;
    case OPERATOR:
        return head[8] == 1;
    default:
        return false;
    }
}

static uint64_t records, refused;

static void refuse(uint64_t record, int code)
{
    refused++;
    printf("r %llu code %d\n", (unsigned long long)record, code);
}

// Takes the whole records of a buffer, and returns how many octets they have; -1 after a malformed one.
static long take_records(const uint8_t *buffer, long size)
{
    long place = 0;
    while (size - place >= HEAD) {
        const uint8_t *record = buffer + place;
        if (!head_holds(record))
            return -1;
        int length = record[8];
        if (size - place < HEAD + length)
            break;
        uint8_t kind = record[2], port = record[3];
        const uint8_t *octets = record + HEAD;
        if (kind == OPERATOR && octets[0] > 3)
            return -1;
        uint32_t at = number(record + 4, 4);
        int answer = kind == PARAMETERS ? parameters(port, at, octets, length) : happening(kind, port, at, octets, length);
        records++;
        if (answer != TAKEN)
            refuse(records, answer);
        place += HEAD + length;
    }
    return place;
}

// Reads to the end or to a malformed record; whether every octet belongs to a whole record.
static bool read_session(void)
{
    static uint8_t buffer[LONGEST + READ];
    long held = 0;
    for (;;) {
        ssize_t count = read(STDIN_FILENO, buffer + held, READ);
        if (count <= 0)
            return held == 0;
        held += count;
        long taken = take_records(buffer, held);
        if (taken < 0)
            return false;
        held -= taken;
        memmove(buffer, buffer + taken, held);
    }
}

int main(void)
{
    if (!read_session())
        refuse(records + 1, RECORD);
    printf("records %llu refused %llu\n", (unsigned long long)records, (unsigned long long)refused);
    for (int i = 0; i < 8; i++) {
        const struct port *p = &ports[i];
        if (!p->running)
            continue;
        printf("port %d wd %u n %lu", i + 1, (unsigned)p->w, (unsigned long)p->total);
        if (p->total)
            printf(" lo %u hi %u", (unsigned)p->lowest, (unsigned)p->highest);
        printf("\n");
    }
}
