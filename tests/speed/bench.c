// The calls of the bench (document 01) in plain C, as one would write them for the job: the bench by pointer, static tables. What
// the library's speed is held to; it is compared with the library in each run.

#include "../../include/whakelouna.h"
#include "signature.c"
#include <string.h>

typedef struct whakelouna_bench bench_t;
typedef struct whakelouna_port port_t;
typedef struct whakelouna_params params_t;
typedef struct whakelouna_fs_master master_t;
typedef struct whakelouna_fs_device device_t;
typedef struct whakelouna_totals totals_t;
typedef struct whakelouna_reply reply_t;

enum { FRESH, GOES_ON, SAFE, NOTHING };

enum { TAKEN, BLOCK_SIZE, BLOCK_ID, PORT_MODE, NO_SCL, FIELD_RANGE, SIGNATURE, BUFFER, NO_PORT, NOT_RUNNING, SPDU_LENGTH, NO_SAMPLES, PORT_MISMATCH };

static uint32_t number(const uint8_t *octets, int count)
{
    uint32_t value = 0;
    for (int i = 0; i < count; i++)
        value = value << 8 | octets[i];
    return value;
}

static int safety_octets(uint8_t mode)
{
    return mode == 1 ? 4 : 6;
}

// The parameter block.

static bool length_fits(const uint8_t *b, int other_offset, int offset)
{
    int other = b[other_offset] & 0x3F;
    int process = b[offset + 2] + 2 * b[offset + 3] + 4 * b[offset + 4];
    int most = b[26] == 1 ? 3 : 25;
    return b[offset] >= 5 && b[offset] + other <= 32 && b[offset] == safety_octets(b[26]) + process && process <= most;
}

// The lowest offset of a field out of its range, or 0.
static uint8_t broken_field(const uint8_t *b)
{
    if (b[3] > 4)
        return 3;
    if (b[4] != 0 && b[4] != 5)
        return 4;
    if (number(b + 6, 2) == 0)
        return 6;
    uint32_t device = number(b + 8, 4);
    if (device == 0 || device > 16777215)
        return 8;
    if (b[12] & 0xC0)
        return 12;
    if (b[13] & 0xC0)
        return 13;
    if (b[22] == 0)
        return 22;
    if (b[25] == 0)
        return 25;
    if (b[26] != 1 && b[26] != 2)
        return 26;
    if (number(b + 27, 2) == 0)
        return 27;
    if (b[37] != 1)
        return 37;
    if (!length_fits(b, 12, 38))
        return 38;
    if (b[39] > 8 * b[40])
        return 39;
    if (!length_fits(b, 13, 43))
        return 43;
    if (b[44] > 8 * b[45])
        return 44;
    return 0;
}

static uint8_t wrong_signature(const uint8_t *b)
{
    if (number(b + 23, 2) != reference_signature16(0, b + 14, 9))
        return 23;
    if (number(b + 29, 2) != reference_signature16(0, b + 37, 11))
        return 29;
    if (number(b + 35, 2) != reference_signature16(0, b + 25, 10))
        return 35;
    return 0;
}

static uint8_t judge_block(const uint8_t *b, size_t length, uint8_t port, uint8_t *offset)
{
    if (port == 0 || port > 8)
        return NO_PORT;
    if (length != 48)
        return BLOCK_SIZE;
    if (number(b, 2) != 0x8001)
        return BLOCK_ID;
    if (b[2] <= 4 || b[2] == 51)
        return NO_SCL;
    if (b[2] != 49 && b[2] != 50)
        return PORT_MODE;
    if ((*offset = broken_field(b)))
        return FIELD_RANGE;
    if (b[22] != port)
        return PORT_MISMATCH;
    if ((*offset = wrong_signature(b)))
        return SIGNATURE;
    return TAKEN;
}

static params_t params_of(const uint8_t *b)
{
    return (params_t) {
        .PortMode = b[2],
        .ValidationBackup = b[3],
        .IQBehavior = b[4],
        .PortCycleTime = b[5],
        .VendorID = (uint16_t)number(b + 6, 2),
        .DeviceID = number(b + 8, 4),
        .InputDataLength = b[12],
        .OutputDataLength = b[13],
        .FSCP_Authenticity1 = number(b + 14, 4),
        .FSCP_Authenticity2 = number(b + 18, 4),
        .FSP_Port = b[22],
        .FSP_ProtVersion = b[25],
        .FSP_ProtMode = b[26],
        .FSP_WatchdogTime = (uint16_t)number(b + 27, 2),
        .FSP_TechParCRC = number(b + 31, 4),
        .IO_DescVersion = b[37],
        .SPDUInLength = b[38],
        .TotalOfInBits = b[39],
        .TotalOfInOctets = b[40],
        .TotalOfInInt16 = b[41],
        .TotalOfInInt32 = b[42],
        .SPDUOutLength = b[43],
        .TotalOfOutBits = b[44],
        .TotalOfOutOctets = b[45],
        .TotalOfOutInt16 = b[46],
        .TotalOfOutInt32 = b[47],
    };
}

static master_t first_master(uint32_t at)
{
    return (master_t) { .state = 2, .setSD = true, .SDset_S = true, .MTimer = at, .start = at };
}

static device_t first_device(uint32_t at)
{
    return (device_t) { .state = 21, .SDcycles = 3, .SDset = true, .setSD_DC = true, .DTimer = at };
}

void reference_new_bench(bench_t *bench)
{
    memset(bench, 0, sizeof *bench);
    for (int i = 0; i < 8; i++) {
        bench->ports[i].live.master = first_master(0);
        bench->ports[i].live.device = first_device(0);
    }
}

static reply_t silent(uint8_t number, uint8_t offset)
{
    return (reply_t) { .number = number, .offset = offset, .master = NOTHING, .device = NOTHING };
}

reply_t reference_set_parameters(bench_t *bench, uint8_t port, uint32_t at, const uint8_t *octets, size_t length)
{
    uint8_t offset = 0;
    uint8_t answer = judge_block(octets, length, port, &offset);
    if (answer == TAKEN) {
        port_t *p = &bench->ports[port - 1];
        p->setting.params = params_of(octets);
        p->setting.running = true;
        p->live.totals = (totals_t) { 0 };
        p->live.device = first_device(at);
        p->live.master = first_master(at);
        memset(p->bins, 0, sizeof p->bins);
    }
    return silent(answer, offset);
}

// SPDUs.

// From seed 1, a zero replaced.
static uint32_t signature_of(const params_t *params, const uint8_t *octets, size_t length)
{
    uint32_t signature = params->FSP_ProtMode == 1 ? reference_signature16(1, octets, length) : reference_signature32(1, octets, length);
    return signature ? signature : 1;
}

// Process octets, port number, control or status octet, signature.
static void write_spdu(const params_t *params, const uint8_t *process, size_t size, uint8_t control, uint8_t *out)
{
    memcpy(out, process, size);
    out[size] = params->FSP_Port;
    out[size + 1] = control;
    uint32_t signature = signature_of(params, out, size + 2);
    int width = safety_octets(params->FSP_ProtMode) - 2;
    for (int i = 0; i < width; i++)
        out[size + 2 + i] = (uint8_t)(signature >> 8 * (width - 1 - i));
}

static bool all_zero(const uint8_t *octets, size_t length)
{
    for (size_t i = 0; i < length; i++)
        if (octets[i])
            return false;
    return true;
}

// What a check needs of an SPDU of the right length.
struct read {
    uint8_t control;
    bool zeros, port, signature;
};

static struct read read_spdu(const params_t *params, const uint8_t *spdu, size_t length)
{
    int width = safety_octets(params->FSP_ProtMode) - 2;
    size_t contents = length - width;
    return (struct read) {
        .control = spdu[contents - 1],
        .zeros = all_zero(spdu, length),
        .port = spdu[contents - 2] == params->FSP_Port,
        .signature = number(spdu + contents, width) == signature_of(params, spdu, contents),
    };
}

// The machines (000 Tables 38 and 40).

static uint8_t follows(uint8_t count)
{
    return count == 7 ? 1 : count + 1;
}

static bool expired(bool runs, uint32_t at, uint32_t since, uint16_t w)
{
    return runs && at - since > w;
}

static uint8_t mark(bool fresh, bool released)
{
    return released ? fresh ? FRESH : GOES_ON : SAFE;
}

static void send_count(master_t *m, uint8_t count, uint32_t at)
{
    if (count != m->MCount)
        m->start = at;
    m->MCount = count;
    m->MTimer = at;
    m->runs = true;
}

static void use_safe_data(master_t *m)
{
    m->released = false;
    m->setSD = true;
    m->SDset_S = true;
    m->state = 7;
}

static void drop_request(master_t *m)
{
    m->ChFAckReq = false;
    m->ChFAckReq_S = false;
    m->ChFAck_C_e = false;
}

// T8, T14
static void judge_master(master_t *m, uint16_t w, uint32_t at)
{
    if (!expired(m->runs, at, m->MTimer, w))
        return;
    if (m->state == 7)
        drop_request(m);
    use_safe_data(m);
    send_count(m, 0, at);
}

static void tally(port_t *p, uint32_t t)
{
    uint16_t w = p->setting.params.FSP_WatchdogTime;
    totals_t *totals = &p->live.totals;
    if (totals->total == UINT32_MAX || t > w)
        return;
    p->bins[t * 32 / (w + 1u)]++;
    if (totals->total == 0 || t < totals->lowest)
        totals->lowest = (uint16_t)t;
    if (totals->total == 0 || t > totals->highest)
        totals->highest = (uint16_t)t;
    totals->total++;
    totals->sum += t;
}

// What follows a check: T4, T7, T11, T12, T13.
static void act_on_response(master_t *m, bool faults, bool sd_set, uint32_t at)
{
    bool from_fault = m->state == 7;
    bool acknowledged = m->ChFAck_C && m->ChFAck_C_e;
    if (faults || (from_fault && !acknowledged)) {
        if (faults && from_fault)
            drop_request(m);
        if (!faults) {
            m->ChFAckReq = true;
            m->ChFAckReq_S = true;
            m->ChFAck_C_e |= !m->ChFAck_C;
        }
        use_safe_data(m);
    } else {
        if (from_fault)
            drop_request(m);
        m->SDset_S = sd_set || m->setSD_C;
        m->released = !m->SDset_S;
        m->setSD = m->setSD_C;
        m->state = 5;
    }
    send_count(m, follows(m->MCount), at);
}

static uint8_t take_response(port_t *p, uint32_t at, const uint8_t *spdu)
{
    const params_t *params = &p->setting.params;
    master_t *m = &p->live.master;
    struct read r = read_spdu(params, spdu, params->SPDUInLength);
    uint8_t count = r.control >> 5;
    uint8_t awaited = 7 - m->MCount;
    bool old = m->previous && (count == m->carried || count == m->awaited);
    bool expected = count == awaited;
    bool admitted = m->state == 2 ? expected : !old || (m->state == 7 && m->MCount == 0 && expected);
    if (r.zeros || !admitted)
        return mark(false, m->released);
    m->previous = true;
    m->carried = count;
    m->awaited = awaited;
    bool passes = r.signature && r.port && expected;
    uint32_t t = at - m->start;
    act_on_response(m, !passes || r.control & 3, r.control & 4, at);
    if (m->released)
        tally(p, t);
    return mark(true, m->released);
}

static void answer_at(device_t *d, uint32_t at)
{
    d->responded = true;
    d->DCount_i = 7 - d->MCount;
    d->DTimer = at;
    d->runs = true;
    d->released = false;
}

// T30, T31
static void judge_device(device_t *d, uint16_t w, uint32_t at)
{
    if (!expired(d->runs, at, d->DTimer, w))
        return;
    answer_at(d, at);
    d->setSD_DC = true;
    d->SDset = true;
    d->DTimeout = true;
    d->TimeoutCount = 1;
    d->SDcycles = 3;
    d->state = 26;
}

// T22
static void act_on_good(device_t *d, bool set_sd)
{
    bool safe = d->SDcycles != 0;
    d->DCommErr = false;
    d->DTimeout = false;
    d->SDset = safe;
    d->setSD_DC = safe || set_sd;
    d->released = !safe && !set_sd;
    if (safe)
        d->SDcycles--;
    d->state = 24;
}

// T25
static void act_on_error(device_t *d)
{
    d->SDset = true;
    d->DCommErr = true;
    d->CommErrCount = 1;
    d->SDcycles = 3;
    d->state = 26;
}

// T28, T29
static void act_after_fault(device_t *d, bool error)
{
    if (!error && d->SDcycles == 0) {
        d->setSD_DC = false;
        d->SDset = false;
        d->DCommErr = false;
        d->DTimeout = false;
        d->state = 24;
        return;
    }
    d->setSD_DC = true;
    d->SDset = true;
    if (error) {
        d->CommErrCount = 1;
        d->SDcycles = 3;
    } else {
        d->SDcycles--;
    }
    d->DCommErr = d->CommErrCount == 1;
    d->CommErrCount = 0;
    d->DTimeout = d->TimeoutCount == 1;
    d->TimeoutCount = 0;
    d->state = 26;
}

static uint8_t take_request(port_t *p, uint32_t at, const uint8_t *spdu)
{
    const params_t *params = &p->setting.params;
    device_t *d = &p->live.device;
    struct read r = read_spdu(params, spdu, params->SPDUOutLength);
    uint8_t count = r.control >> 5;
    if (r.zeros || (d->state != 21 && count == d->MCount))
        return mark(false, d->released);
    bool error = !r.signature || !r.port || (count != 0 && count != follows(d->MCount));
    d->MCount = count;
    d->ChFAckReq_DC = r.control & 1;
    answer_at(d, at);
    if (d->state == 26)
        act_after_fault(d, error);
    else if (error)
        act_on_error(d);
    else
        act_on_good(d, r.control & 2);
    return mark(true, d->released);
}

// The calls.

static uint8_t call_answer(const bench_t *bench, uint8_t port)
{
    if (port == 0 || port > 8)
        return NO_PORT;
    return bench->ports[port - 1].setting.running ? TAKEN : NOT_RUNNING;
}

static bool safe_holds(const params_t *params, uint8_t spdu_length, const uint8_t *safe, size_t length)
{
    return length + safety_octets(params->FSP_ProtMode) == spdu_length && all_zero(safe, length);
}

static void judge(port_t *p, uint32_t at)
{
    uint16_t w = p->setting.params.FSP_WatchdogTime;
    judge_master(&p->live.master, w, at);
    judge_device(&p->live.device, w, at);
}

static reply_t replied(const port_t *p, uint8_t master, uint8_t device)
{
    return (reply_t) {
        .number = TAKEN, .master = master, .device = device,
        .master_releases = p->live.master.released, .device_releases = p->live.device.released
    };
}

reply_t reference_receive_response(bench_t *bench, uint8_t port, uint32_t at, const uint8_t *spdu, size_t length, const uint8_t *safe, size_t safe_length)
{
    uint8_t answer = call_answer(bench, port);
    if (answer != TAKEN)
        return silent(answer, 0);
    port_t *p = &bench->ports[port - 1];
    const params_t *params = &p->setting.params;
    if (length != params->SPDUInLength)
        return silent(SPDU_LENGTH, 0);
    if (!safe_holds(params, params->SPDUInLength, safe, safe_length))
        return silent(BUFFER, 0);
    judge(p, at);
    uint8_t master = take_response(p, at, spdu);
    return replied(p, master, mark(false, p->live.device.released));
}

reply_t reference_receive_request(bench_t *bench, uint8_t port, uint32_t at, const uint8_t *spdu, size_t length, const uint8_t *safe, size_t safe_length)
{
    uint8_t answer = call_answer(bench, port);
    if (answer != TAKEN)
        return silent(answer, 0);
    port_t *p = &bench->ports[port - 1];
    const params_t *params = &p->setting.params;
    if (length != params->SPDUOutLength)
        return silent(SPDU_LENGTH, 0);
    if (!safe_holds(params, params->SPDUOutLength, safe, safe_length))
        return silent(BUFFER, 0);
    judge(p, at);
    uint8_t device = take_request(p, at, spdu);
    return replied(p, mark(false, p->live.master.released), device);
}

static reply_t quiet(const port_t *p)
{
    return replied(p, mark(false, p->live.master.released), mark(false, p->live.device.released));
}

reply_t reference_clock(bench_t *bench, uint8_t port, uint32_t at, const uint8_t *safe_in, size_t in_length, const uint8_t *safe_out, size_t out_length)
{
    uint8_t answer = call_answer(bench, port);
    if (answer != TAKEN)
        return silent(answer, 0);
    port_t *p = &bench->ports[port - 1];
    const params_t *params = &p->setting.params;
    if (!safe_holds(params, params->SPDUInLength, safe_in, in_length) || !safe_holds(params, params->SPDUOutLength, safe_out, out_length))
        return silent(BUFFER, 0);
    judge(p, at);
    return quiet(p);
}

reply_t reference_operator(bench_t *bench, uint8_t port, uint32_t at, bool setSD_C, bool ChFAck_C, const uint8_t *safe, size_t safe_length)
{
    uint8_t answer = call_answer(bench, port);
    if (answer != TAKEN)
        return silent(answer, 0);
    port_t *p = &bench->ports[port - 1];
    if (!safe_holds(&p->setting.params, p->setting.params.SPDUInLength, safe, safe_length))
        return silent(BUFFER, 0);
    judge(p, at);
    p->live.master.setSD_C = setSD_C;
    p->live.master.ChFAck_C = ChFAck_C;
    return quiet(p);
}

uint8_t reference_compose(const bench_t *bench, uint8_t port, const uint8_t *process, size_t process_length, const uint8_t *other, size_t other_length, uint8_t *octets, size_t length)
{
    static const uint8_t zeros[32];
    uint8_t answer = call_answer(bench, port);
    if (answer != TAKEN)
        return answer;
    const port_t *p = &bench->ports[port - 1];
    const params_t *params = &p->setting.params;
    size_t spdu = params->SPDUOutLength;
    if (process_length + safety_octets(params->FSP_ProtMode) != spdu || other_length != params->OutputDataLength || length != spdu + other_length)
        return BUFFER;
    const master_t *m = &p->live.master;
    uint8_t control = (uint8_t)(m->MCount << 5 | m->setSD << 1 | m->ChFAckReq);
    write_spdu(params, m->setSD ? zeros : process, process_length, control, octets);
    memcpy(octets + spdu, other, other_length);
    return TAKEN;
}

uint8_t reference_build_response(const bench_t *bench, uint8_t port, const uint8_t *process, size_t process_length, uint8_t *out, size_t out_length)
{
    uint8_t answer = call_answer(bench, port);
    if (answer != TAKEN)
        return answer;
    const port_t *p = &bench->ports[port - 1];
    const params_t *params = &p->setting.params;
    size_t spdu = params->SPDUInLength;
    if (process_length + safety_octets(params->FSP_ProtMode) != spdu || out_length != spdu)
        return BUFFER;
    const device_t *d = &p->live.device;
    if (!d->responded) {
        memset(out, 0, out_length);
        return TAKEN;
    }
    uint8_t status = (uint8_t)(d->DCount_i << 5 | d->SDset << 2 | d->DCommErr << 1 | d->DTimeout);
    write_spdu(params, process, process_length, status, out);
    return TAKEN;
}

struct whakelouna_split_told reference_split(const bench_t *bench, uint8_t port, const uint8_t *octets, size_t length)
{
    (void)octets;
    uint8_t answer = call_answer(bench, port);
    if (answer != TAKEN)
        return (struct whakelouna_split_told) { .number = answer };
    const params_t *params = &bench->ports[port - 1].setting.params;
    if (length != (size_t)params->SPDUInLength + params->InputDataLength)
        return (struct whakelouna_split_told) { .number = BUFFER };
    return (struct whakelouna_split_told) { .spdu = params->SPDUInLength, .other = params->InputDataLength };
}

struct whakelouna_trend_told reference_trend(const bench_t *bench, uint8_t port)
{
    struct whakelouna_trend_told trend = { .number = call_answer(bench, port) };
    if (trend.number != TAKEN)
        return trend;
    const totals_t *totals = &bench->ports[port - 1].live.totals;
    if (totals->total == 0) {
        trend.number = NO_SAMPLES;
        return trend;
    }
    trend.point.mean = (double)totals->sum / totals->total;
    trend.point.lowest = totals->lowest;
    trend.point.highest = totals->highest;
    return trend;
}

struct whakelouna_bins_told reference_bins(const bench_t *bench, uint8_t port)
{
    struct whakelouna_bins_told told = { .number = call_answer(bench, port) };
    if (told.number != TAKEN)
        return told;
    const port_t *p = &bench->ports[port - 1];
    memcpy(told.bins, p->bins, sizeof told.bins);
    told.total = p->live.totals.total;
    told.frozen = told.total == UINT32_MAX;
    return told;
}

struct whakelouna_master_told reference_master(const bench_t *bench, uint8_t port)
{
    uint8_t answer = call_answer(bench, port);
    return (struct whakelouna_master_told) { .number = answer, .master = answer == TAKEN ? bench->ports[port - 1].live.master : first_master(0) };
}

struct whakelouna_device_told reference_device(const bench_t *bench, uint8_t port)
{
    uint8_t answer = call_answer(bench, port);
    return (struct whakelouna_device_told) { .number = answer, .device = answer == TAKEN ? bench->ports[port - 1].live.device : first_device(0) };
}
