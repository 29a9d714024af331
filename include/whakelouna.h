// The C boundary of libexport.a. Each function takes every input, as long as a pointer has the octets that its length says; what it promises stands in
// crates/export/src. Where an output buffer has a wrong length nothing is written. No struct has padding: `unused` is in its place, 0 in every
// result and in a new bench, so that results and benches can be compared and saved octet for octet.
#ifndef WHAKELOUNA_H
#define WHAKELOUNA_H

#include <stdbool.h>
#include <stddef.h>
#include <stdint.h>

#ifdef __cplusplus
extern "C" {
#endif

// Document 01's answers: a `number` below is one of these. An `offset` is that of the block's field, with 5 and 6 alone; else 0.
enum whakelouna_answer {
    WHAKELOUNA_TAKEN,
    WHAKELOUNA_BLOCK_SIZE,
    WHAKELOUNA_BLOCK_ID,
    WHAKELOUNA_PORT_MODE,
    WHAKELOUNA_NO_SCL,
    WHAKELOUNA_FIELD_RANGE,
    WHAKELOUNA_SIGNATURE,
    WHAKELOUNA_BUFFER,
    WHAKELOUNA_NO_PORT,
    WHAKELOUNA_NOT_RUNNING,
    WHAKELOUNA_SPDU_LENGTH,
    WHAKELOUNA_NO_SAMPLES,
    WHAKELOUNA_PORT_MISMATCH,
    WHAKELOUNA_RECORD
};

// The signatures of 000 Annex D. `_by` takes a table that the caller holds; `whakelouna_table16` and `_table32` write the right one. The long
// signature takes half an octet at a time, so that its table has 16 entries. `_by_shift` is the bit shift loop of 000 Figures D.3 and D.5. Where a
// function below takes `shift`, true signs by that loop instead of the tables. The results are the same; it is for people who approve and read the loop,
// not a table.
void whakelouna_table16(uint16_t table[256]);
void whakelouna_table32(uint32_t table[16]);
uint16_t whakelouna_step16(uint16_t reg, uint8_t octet);
uint32_t whakelouna_step32(uint32_t reg, uint8_t octet);
uint16_t whakelouna_step16_by_shift(uint16_t reg, uint8_t octet);
uint32_t whakelouna_step32_by_shift(uint32_t reg, uint8_t octet);
uint16_t whakelouna_signature16(uint16_t seed, const uint8_t *octets, size_t length);
uint32_t whakelouna_signature32(uint32_t seed, const uint8_t *octets, size_t length);
uint16_t whakelouna_signature16_by_shift(uint16_t seed, const uint8_t *octets, size_t length);
uint32_t whakelouna_signature32_by_shift(uint32_t seed, const uint8_t *octets, size_t length);
uint16_t whakelouna_signature16_by(const uint16_t table[256], uint16_t seed, const uint8_t *octets, size_t length);
uint32_t whakelouna_signature32_by(const uint32_t table[16], uint32_t seed, const uint8_t *octets, size_t length);

// The response histogram of a port: samples in ms by 32 bins of the watchdog time.
struct whakelouna_histogram {
    uint64_t sum;
    uint32_t bins[32];
    uint32_t total;
    uint16_t lowest;
    uint16_t highest;
};

struct whakelouna_trend_point {
    double mean;
    float lowest;
    float highest;
};

// A trend point beside its answer number.
struct whakelouna_trend_told {
    struct whakelouna_trend_point point;
    uint8_t number;
    uint8_t unused[7];
};

// A bin is time * 32 / (watchdog + 1), rounded down: 0 to 31 where time is at most watchdog, and may be above 31 where it is not.
size_t whakelouna_bin(uint16_t watchdog, uint32_t time);

bool whakelouna_frozen(struct whakelouna_histogram histogram);
struct whakelouna_histogram whakelouna_cleared(void);
// One more sample. One above the watchdog time is counted too, in total, sum, lowest and highest, and raises the bin of its number only where there is one:
// whether a response is a sample is the bench's to judge.
struct whakelouna_histogram whakelouna_counted(struct whakelouna_histogram histogram, uint16_t watchdog, uint16_t sample);
struct whakelouna_trend_told whakelouna_trend_of(struct whakelouna_histogram histogram);

// What an accepted parameter block hands on, under the names of 000 Table 22.
struct whakelouna_params {
    uint32_t DeviceID;
    uint32_t FSCP_Authenticity1;
    uint32_t FSCP_Authenticity2;
    uint32_t FSP_TechParCRC;
    uint16_t VendorID;
    uint16_t FSP_WatchdogTime;
    uint8_t PortMode;
    uint8_t ValidationBackup;
    uint8_t IQBehavior;
    uint8_t PortCycleTime;
    uint8_t InputDataLength;
    uint8_t OutputDataLength;
    uint8_t FSP_Port;
    uint8_t FSP_ProtVersion;
    uint8_t FSP_ProtMode;
    uint8_t IO_DescVersion;
    uint8_t SPDUInLength;
    uint8_t SPDUOutLength;
    uint8_t TotalOfInBits;
    uint8_t TotalOfInOctets;
    uint8_t TotalOfInInt16;
    uint8_t TotalOfInInt32;
    uint8_t TotalOfOutBits;
    uint8_t TotalOfOutOctets;
    uint8_t TotalOfOutInt16;
    uint8_t TotalOfOutInt32;
};

// The number and the offset of 01's answer; the parameters are zeros in a refusal.
struct whakelouna_block_answer {
    struct whakelouna_params params;
    uint8_t number;
    uint8_t offset;
    uint8_t unused[2];
};

// The answer to a parameter block for a port.
struct whakelouna_block_answer whakelouna_judge_block(bool shift, const uint8_t *octets, size_t length, uint8_t port);

// What an FS-Master reads of an SPDU: its length, and its fields (000 Table 32). Of another length than SPDUInLength: count 0, every mark false.
struct whakelouna_response {
    size_t length;
    uint8_t DCount_i;
    bool SDset;
    bool DCommErr;
    bool DTimeout;
    bool port_holds;
    bool signature_holds;
    bool all_zero;
    uint8_t unused;
};

// What an FS-Device reads of an SPDU (000 Table 31), likewise with SPDUOutLength.
struct whakelouna_request {
    size_t length;
    uint8_t MCount;
    bool setSD;
    bool ChFAckReq;
    bool port_holds;
    bool signature_holds;
    bool all_zero;
    uint16_t unused;
};

// Each takes both signature tables; with `shift` they are not read, whatever they hold. A build fills `out`, which overlaps with nothing else that is
// passed, and returns 0; where a length is wrong it writes nothing and returns 7.
struct whakelouna_response whakelouna_read_response_by(bool shift, const uint16_t short_table[256], const uint32_t long_table[16],
    struct whakelouna_params params, const uint8_t *octets, size_t length);
struct whakelouna_request whakelouna_read_request_by(bool shift, const uint16_t short_table[256], const uint32_t long_table[16],
    struct whakelouna_params params, const uint8_t *octets, size_t length);
uint8_t whakelouna_build_request_by(bool shift, const uint16_t short_table[256], const uint32_t long_table[16],
    struct whakelouna_params params, uint8_t MCount, bool setSD, bool ChFAckReq,
    const uint8_t *process, size_t process_length, uint8_t *out, size_t out_length);
uint8_t whakelouna_build_response_by(bool shift, const uint16_t short_table[256], const uint32_t long_table[16],
    struct whakelouna_params params, bool responded, uint8_t DCount_i, bool SDset, bool DCommErr, bool DTimeout,
    const uint8_t *process, size_t process_length, uint8_t *out, size_t out_length);

// The SCL machines of 000 Tables 38 and 40. `state` is 000's number of the state in which the machine waits: of the FS-Master 2 (for the first response), 5
// (regular operation) or 7 (after a fault, for the acknowledgement), of the FS-Device 21 (for the first SPDU), 24 (regular operation) or 26 (after an error
// or a timeout). What a call does: rows by 000's numbers, 0 for none; the check that failed first (0 none, 1 signature, 2 port number, 3 count); the mark
// (0 fresh octets, 1 release goes on, 2 safe values). A machine is given the fields of an SPDU and looks at no length: 10 is the bench's.
struct whakelouna_fs_master {
    uint32_t MTimer, start;
    uint16_t carried, awaited;
    uint8_t state, MCount;
    bool setSD, SDset_S, ChFAckReq, ChFAckReq_S, ChFAck_C_e, setSD_C, ChFAck_C, previous, runs, released;
};

struct whakelouna_fs_device {
    uint32_t DTimer;
    uint16_t CommErrCount, TimeoutCount;
    uint8_t state, SDcycles, DCount_i, MCount;
    bool DCommErr, DTimeout, SDset, setSD_DC, ChFAckReq_DC, runs, released, responded;
};

struct whakelouna_master_outcome {
    struct whakelouna_fs_master master;
    uint8_t watchdog, arrival, check;
    bool old, passed;
    uint8_t mark;
    uint8_t unused[2];
};

struct whakelouna_device_outcome {
    struct whakelouna_fs_device device;
    uint8_t watchdog, arrival, check;
    bool old, passed;
    uint8_t mark;
    uint8_t unused[2];
};

uint32_t whakelouna_elapsed(uint32_t now, uint32_t since);
struct whakelouna_fs_master whakelouna_master_first(uint32_t at);
struct whakelouna_master_outcome whakelouna_master_response(struct whakelouna_fs_master master, uint16_t w, uint32_t at, struct whakelouna_response response);
struct whakelouna_master_outcome whakelouna_master_clock(struct whakelouna_fs_master master, uint16_t w, uint32_t at);
struct whakelouna_master_outcome whakelouna_master_operator(struct whakelouna_fs_master master, uint16_t w, uint32_t at, bool setSD_C, bool ChFAck_C);
struct whakelouna_fs_device whakelouna_device_first(uint32_t at);
struct whakelouna_device_outcome whakelouna_device_request(struct whakelouna_fs_device device, uint16_t w, uint32_t at, struct whakelouna_request request);
struct whakelouna_device_outcome whakelouna_device_clock(struct whakelouna_fs_device device, uint16_t w, uint32_t at);

// What only an accepted parameter block changes. `running`: parameters have been accepted.
struct whakelouna_setting {
    struct whakelouna_params params;
    bool running;
    uint8_t unused[7];
};

// All of a histogram but its bins.
struct whakelouna_totals {
    uint64_t sum;
    uint32_t total;
    uint16_t lowest;
    uint16_t highest;
};

// What a happening changes, which is a response, a request, a clock reading or operator signals: both ends, and all of the histogram but its bins.
struct whakelouna_live {
    struct whakelouna_fs_device device;
    struct whakelouna_fs_master master;
    uint32_t unused;
    struct whakelouna_totals totals;
};

// A port. A response that is counted raises one of the bins; an accepted block begins `live` and the bins anew.
struct whakelouna_port {
    struct whakelouna_setting setting;
    struct whakelouna_live live;
    uint32_t bins[32];
};

// The bench: ports 1 to 8, each with both its ends (document 01).
struct whakelouna_bench {
    struct whakelouna_port ports[8];
};

// The number and the offset of 01's answer; for each end what is handed on and whether it releases after the call. Handed on are: 0 the process
// octets of the SPDU that came, all but its last 4 with FSP_ProtMode 1, all but its last 6 with 2; 1 nothing, as release goes on; 2 the safe
// values lent; 3 nothing. `whakelouna_handed_on` copies them. In a refusal and in a parameter block: 3, and not released. An end for which the call lends no safe
// values has 2 too where it does not release: then the caller has its zeros.
struct whakelouna_reply {
    uint8_t number, offset, master, device;
    bool master_releases, device_releases;
    uint8_t unused[2];
};

// The bench after a call; a refusal leaves it as it was.
struct whakelouna_bench_told {
    struct whakelouna_bench bench;
    struct whakelouna_reply reply;
};

// The lengths of an incoming image's parts, the SPDU first; zeros in a refusal.
struct whakelouna_split_told {
    size_t spdu, other;
    uint8_t number;
    uint8_t unused[7];
};

// How many octets were handed on; 0 in a refusal.
struct whakelouna_handed_told {
    size_t octets;
    uint8_t number;
    uint8_t unused[7];
};

// What a port shows beside the answer's number; in a refusal, what a port that never ran shows.
struct whakelouna_bins_told {
    uint32_t bins[32];
    uint32_t total;
    uint8_t number;
    bool frozen;
    uint8_t unused[2];
};

struct whakelouna_master_told {
    struct whakelouna_fs_master master;
    uint8_t number;
    uint8_t unused[3];
};

struct whakelouna_device_told {
    struct whakelouna_fs_device device;
    uint8_t number;
    uint8_t unused[3];
};

// A bench on which no port runs.
struct whakelouna_bench whakelouna_new_bench(void);

// A parameter block of any length, with its clock reading in ms.
struct whakelouna_bench_told whakelouna_set_parameters(bool shift, struct whakelouna_bench bench, uint8_t port, uint32_t at,
    const uint8_t *octets, size_t length);

// What happens at a port, with the clock reading. `safe` are zeros, as many as the SPDU has process octets: of the FS-Master's incoming SPDU
// in a response and an operator call, of the FS-Device's in a request; a clock call takes both.
struct whakelouna_bench_told whakelouna_receive_response(bool shift, struct whakelouna_bench bench, uint8_t port, uint32_t at,
    const uint8_t *spdu, size_t spdu_length, const uint8_t *safe, size_t safe_length);
struct whakelouna_bench_told whakelouna_receive_request(bool shift, struct whakelouna_bench bench, uint8_t port, uint32_t at,
    const uint8_t *spdu, size_t spdu_length, const uint8_t *safe, size_t safe_length);
struct whakelouna_bench_told whakelouna_clock(struct whakelouna_bench bench, uint8_t port, uint32_t at,
    const uint8_t *safe_in, size_t safe_in_length, const uint8_t *safe_out, size_t safe_out_length);
struct whakelouna_bench_told whakelouna_operator(struct whakelouna_bench bench, uint8_t port, uint32_t at, bool setSD_C, bool ChFAck_C,
    const uint8_t *safe, size_t safe_length);

// The FS-Master's outgoing image (its SPDU, then the other data) and the FS-Device's outgoing SPDU. Each fills its last buffer, which overlaps
// with nothing else that is passed, and returns 0; in a refusal it writes nothing and returns the answer's number. An image has SPDUOutLength +
// OutputDataLength octets, of which OutputDataLength are other data, the FS-Device's SPDU has SPDUInLength; process octets are as many as the SPDU has, less 4
// with FSP_ProtMode 1 and less 6 with 2.
uint8_t whakelouna_compose(bool shift, struct whakelouna_bench bench, uint8_t port, const uint8_t *process, size_t process_length,
    const uint8_t *other, size_t other_length, uint8_t *octets, size_t length);
uint8_t whakelouna_build_response(bool shift, struct whakelouna_bench bench, uint8_t port, const uint8_t *process, size_t process_length,
    uint8_t *out, size_t out_length);

// The FS-Master's incoming image, of SPDUInLength + InputDataLength octets.
struct whakelouna_split_told whakelouna_split(struct whakelouna_bench bench, uint8_t port, const uint8_t *octets, size_t length);

// What a call handed on at one end, the FS-Device (`device`) or the FS-Master, copied to the front of `out`, which overlaps with nothing else that is
// passed: by that end's mark in the call's reply, from the bench that the call returned, and the SPDU and the safe values that were lent to it. Of mark 0 it is
// the process octets of `spdu`, of 1 nothing, as release goes on; but only where that end of the bench releases and, of 0, the SPDU holds and has the count
// of the last one that the end took: else, and of 2, the safe values. Of any other number nothing. 8 and 9 come first; 10 where the mark is 0 and `spdu` has
// another length than is configured; 7 for safe values of another length or not all zero, and for an `out` with too little room. 25 octets are always
// enough. In a refusal it writes nothing. `spdu` is looked at with mark 0 alone.
struct whakelouna_handed_told whakelouna_handed_on(bool shift, struct whakelouna_bench bench, uint8_t port, bool device, uint8_t mark,
    const uint8_t *spdu, size_t spdu_length, const uint8_t *safe, size_t safe_length, uint8_t *out, size_t out_length);

// What a port shows. Bins and trend point are those of its samples since the last accepted block: the responses that came within the watchdog time and in
// whose call the FS-Master's mark was 0, fresh.
struct whakelouna_trend_told whakelouna_trend(struct whakelouna_bench bench, uint8_t port);
struct whakelouna_bins_told whakelouna_bins(struct whakelouna_bench bench, uint8_t port);
struct whakelouna_master_told whakelouna_master(struct whakelouna_bench bench, uint8_t port);
struct whakelouna_device_told whakelouna_device(struct whakelouna_bench bench, uint8_t port);

// A session of records (document 01): the bench, the whole records read and those refused.
struct whakelouna_state {
    struct whakelouna_bench bench;
    uint64_t records, refused;
};

// After a chunk: how many of its octets are used up and how many were written, and why reading stopped (0 a whole record for whose line there
// may be no room, 1 no record, which ends the session, 2 a record that is not whole, 3 no octets are left).
struct whakelouna_fed_told {
    struct whakelouna_state state;
    size_t used, written;
    uint8_t stop;
    uint8_t unused[7];
};

// A session before its first record.
struct whakelouna_state whakelouna_session_start(void);

// Uses the whole records of a chunk and writes the lines of those refused to the front of `out`, which overlaps with nothing else that is
// passed; at most a record for every 64 octets of it, so that with fewer than 64 none is used. The next chunk begins with the octets that are not used up; as
// a record has at most 264, a buffer of that many for the chunks is enough.
struct whakelouna_fed_told whakelouna_session_feed(bool shift, struct whakelouna_state state, const uint8_t *octets, size_t length,
    uint8_t *out, size_t out_length);

// The end, where octets are left that are no whole record (`some`) or none are: writes what is printed there to the front of `out` and returns
// how many octets that is; where `out` has fewer than 1152 octets it writes nothing and returns 0.
size_t whakelouna_session_finish(struct whakelouna_state state, bool some, uint8_t *out, size_t out_length);

#ifdef __cplusplus
}
#endif

#endif
