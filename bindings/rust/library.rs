// The boundary: the C functions of the static library `export`, each behind a safe function.
// A program may use only some of them.
#![allow(dead_code)]

/// The response histogram of a port.
#[repr(C)]
#[derive(Clone, Copy, Debug, PartialEq)]
pub struct Histogram {
    pub sum: u64,
    pub bins: [u32; 32],
    pub total: u32,
    pub lowest: u16,
    pub highest: u16,
}

#[repr(C)]
#[derive(Clone, Copy, Debug)]
pub struct TrendPoint {
    pub mean: f64,
    pub lowest: f32,
    pub highest: f32,
}

/// A trend point beside its answer number.
#[repr(C)]
#[derive(Clone, Copy, Debug)]
pub struct Trend {
    pub point: TrendPoint,
    pub number: u8,
    pub unused: [u8; 7],
}

// Rattle's `&[u8]` is a pointer and a length here; a reference to an array is a pointer alone.
// `shift`: sign by the bit shift loop of 000 Figures D.3 and D.5 instead of the tables. The results
// are the same; it is for people who approve and read the loop, not a table.
extern "C" {
    fn whakelouna_table16(table: &mut [u16; 256]);
    fn whakelouna_table32(table: &mut [u32; 16]);
    fn whakelouna_step16(register: u16, octet: u8) -> u16;
    fn whakelouna_step32(register: u32, octet: u8) -> u32;
    fn whakelouna_step16_by_shift(register: u16, octet: u8) -> u16;
    fn whakelouna_step32_by_shift(register: u32, octet: u8) -> u32;
    fn whakelouna_signature16(seed: u16, octets: *const u8, length: usize) -> u16;
    fn whakelouna_signature32(seed: u32, octets: *const u8, length: usize) -> u32;
    fn whakelouna_signature16_by_shift(seed: u16, octets: *const u8, length: usize) -> u16;
    fn whakelouna_signature32_by_shift(seed: u32, octets: *const u8, length: usize) -> u32;
    fn whakelouna_signature16_by(
        table: &[u16; 256],
        seed: u16,
        octets: *const u8,
        length: usize,
    ) -> u16;
    fn whakelouna_signature32_by(
        table: &[u32; 16],
        seed: u32,
        octets: *const u8,
        length: usize,
    ) -> u32;
    fn whakelouna_bin(watchdog: u16, time: u32) -> usize;
    fn whakelouna_frozen(histogram: Histogram) -> bool;
    fn whakelouna_cleared() -> Histogram;
    fn whakelouna_counted(histogram: Histogram, watchdog: u16, sample: u16) -> Histogram;
    fn whakelouna_trend_of(histogram: Histogram) -> Trend;
    fn whakelouna_judge_block(
        shift: bool,
        octets: *const u8,
        length: usize,
        port: u8,
    ) -> BlockAnswer;
    fn whakelouna_read_request_by(
        shift: bool,
        short: &[u16; 256],
        long: &[u32; 16],
        params: Params,
        octets: *const u8,
        length: usize,
    ) -> Request;
    fn whakelouna_read_response_by(
        shift: bool,
        short: &[u16; 256],
        long: &[u32; 16],
        params: Params,
        octets: *const u8,
        length: usize,
    ) -> Response;
    fn whakelouna_build_request_by(
        shift: bool,
        short: &[u16; 256],
        long: &[u32; 16],
        params: Params,
        mcount: u8,
        set_sd: bool,
        chf_ack_req: bool,
        process: *const u8,
        process_length: usize,
        out: *mut u8,
        out_length: usize,
    ) -> u8;
    fn whakelouna_build_response_by(
        shift: bool,
        short: &[u16; 256],
        long: &[u32; 16],
        params: Params,
        responded: bool,
        dcount_i: u8,
        sd_set: bool,
        dcomm_err: bool,
        dtimeout: bool,
        process: *const u8,
        process_length: usize,
        out: *mut u8,
        out_length: usize,
    ) -> u8;
    fn whakelouna_elapsed(now: u32, since: u32) -> u32;
    fn whakelouna_master_first(at: u32) -> Master;
    fn whakelouna_master_response(m: Master, w: u16, at: u32, response: Response) -> MasterOutcome;
    fn whakelouna_master_clock(m: Master, w: u16, at: u32) -> MasterOutcome;
    fn whakelouna_master_operator(m: Master, w: u16, at: u32, a: bool, b: bool) -> MasterOutcome;
    fn whakelouna_device_first(at: u32) -> Device;
    fn whakelouna_device_request(d: Device, w: u16, at: u32, request: Request) -> DeviceOutcome;
    fn whakelouna_device_clock(d: Device, w: u16, at: u32) -> DeviceOutcome;
    fn whakelouna_new_bench() -> Bench;
    fn whakelouna_set_parameters(
        shift: bool,
        bench: Bench,
        port: u8,
        at: u32,
        octets: *const u8,
        length: usize,
    ) -> BenchTold;
    fn whakelouna_receive_response(
        shift: bool,
        bench: Bench,
        port: u8,
        at: u32,
        spdu: *const u8,
        length: usize,
        safe: *const u8,
        safe_length: usize,
    ) -> BenchTold;
    fn whakelouna_receive_request(
        shift: bool,
        bench: Bench,
        port: u8,
        at: u32,
        spdu: *const u8,
        length: usize,
        safe: *const u8,
        safe_length: usize,
    ) -> BenchTold;
    fn whakelouna_clock(
        bench: Bench,
        port: u8,
        at: u32,
        safe_in: *const u8,
        safe_in_length: usize,
        safe_out: *const u8,
        safe_out_length: usize,
    ) -> BenchTold;
    fn whakelouna_operator(
        bench: Bench,
        port: u8,
        at: u32,
        set_sd_c: bool,
        ack_c: bool,
        safe: *const u8,
        safe_length: usize,
    ) -> BenchTold;
    fn whakelouna_compose(
        shift: bool,
        bench: Bench,
        port: u8,
        process: *const u8,
        process_length: usize,
        other: *const u8,
        other_length: usize,
        octets: *mut u8,
        length: usize,
    ) -> u8;
    fn whakelouna_build_response(
        shift: bool,
        bench: Bench,
        port: u8,
        process: *const u8,
        process_length: usize,
        out: *mut u8,
        out_length: usize,
    ) -> u8;
    fn whakelouna_split(bench: Bench, port: u8, octets: *const u8, length: usize) -> SplitTold;
    fn whakelouna_handed_on(
        shift: bool,
        bench: Bench,
        port: u8,
        device: bool,
        mark: u8,
        spdu: *const u8,
        spdu_length: usize,
        safe: *const u8,
        safe_length: usize,
        out: *mut u8,
        out_length: usize,
    ) -> HandedTold;
    fn whakelouna_trend(bench: Bench, port: u8) -> Trend;
    fn whakelouna_bins(bench: Bench, port: u8) -> BinsTold;
    fn whakelouna_master(bench: Bench, port: u8) -> MasterTold;
    fn whakelouna_device(bench: Bench, port: u8) -> DeviceTold;
    fn whakelouna_session_start() -> State;
    fn whakelouna_session_feed(
        shift: bool,
        state: State,
        octets: *const u8,
        length: usize,
        out: *mut u8,
        out_length: usize,
    ) -> FedTold;
    fn whakelouna_session_finish(
        state: State,
        some: bool,
        out: *mut u8,
        out_length: usize,
    ) -> usize;
}

#[repr(C)]
pub struct BlockAnswer {
    pub params: Params,
    pub number: u8,
    pub offset: u8,
    pub unused: [u8; 2],
}

/// The elements of 000 Table 22 that an accepted block hands on.
#[repr(C)]
#[derive(Clone, Copy, Debug, Default, PartialEq)]
pub struct Params {
    pub device_id: u32,
    pub fscp_authenticity1: u32,
    pub fscp_authenticity2: u32,
    pub fsp_tech_par_crc: u32,
    pub vendor_id: u16,
    pub fsp_watchdog_time: u16,
    pub port_mode: u8,
    pub validation_backup: u8,
    pub iq_behavior: u8,
    pub port_cycle_time: u8,
    pub input_data_length: u8,
    pub output_data_length: u8,
    pub fsp_port: u8,
    pub fsp_prot_version: u8,
    pub fsp_prot_mode: u8,
    pub io_desc_version: u8,
    pub spdu_in_length: u8,
    pub spdu_out_length: u8,
    pub total_of_in_bits: u8,
    pub total_of_in_octets: u8,
    pub total_of_in_int16: u8,
    pub total_of_in_int32: u8,
    pub total_of_out_bits: u8,
    pub total_of_out_octets: u8,
    pub total_of_out_int16: u8,
    pub total_of_out_int32: u8,
}

/// What an FS-Device reads of an SPDU.
#[repr(C)]
#[derive(Clone, Copy)]
pub struct Request {
    pub length: usize,
    pub mcount: u8,
    pub set_sd: bool,
    pub chf_ack_req: bool,
    pub port_holds: bool,
    pub signature_holds: bool,
    pub all_zero: bool,
    pub unused: u16,
}

/// What an FS-Master reads of an SPDU.
#[repr(C)]
#[derive(Clone, Copy)]
pub struct Response {
    pub length: usize,
    pub dcount_i: u8,
    pub sd_set: bool,
    pub dcomm_err: bool,
    pub dtimeout: bool,
    pub port_holds: bool,
    pub signature_holds: bool,
    pub all_zero: bool,
    pub unused: u8,
}

#[repr(C)]
#[derive(Clone, Copy, Debug, PartialEq)]
#[allow(non_snake_case)]
pub struct Master {
    pub MTimer: u32,
    pub start: u32,
    pub carried: u16,
    pub awaited: u16,
    pub state: u8,
    pub MCount: u8,
    pub setSD: bool,
    pub SDset_S: bool,
    pub ChFAckReq: bool,
    pub ChFAckReq_S: bool,
    pub ChFAck_C_e: bool,
    pub setSD_C: bool,
    pub ChFAck_C: bool,
    pub previous: bool,
    pub runs: bool,
    pub released: bool,
}

#[repr(C)]
#[derive(Clone, Copy, Debug, PartialEq)]
#[allow(non_snake_case)]
pub struct Device {
    pub DTimer: u32,
    pub CommErrCount: u16,
    pub TimeoutCount: u16,
    pub state: u8,
    pub SDcycles: u8,
    pub DCount_i: u8,
    pub MCount: u8,
    pub DCommErr: bool,
    pub DTimeout: bool,
    pub SDset: bool,
    pub setSD_DC: bool,
    pub ChFAckReq_DC: bool,
    pub runs: bool,
    pub released: bool,
    pub responded: bool,
}

#[repr(C)]
#[derive(Clone, Copy, Debug, PartialEq)]
pub struct MasterOutcome {
    pub master: Master,
    pub watchdog: u8,
    pub arrival: u8,
    pub check: u8,
    pub old: bool,
    pub passed: bool,
    pub mark: u8,
    pub unused: [u8; 2],
}

#[repr(C)]
#[derive(Clone, Copy, Debug, PartialEq)]
pub struct DeviceOutcome {
    pub device: Device,
    pub watchdog: u8,
    pub arrival: u8,
    pub check: u8,
    pub old: bool,
    pub passed: bool,
    pub mark: u8,
    pub unused: [u8; 2],
}

/// What only an accepted block changes.
#[repr(C)]
#[derive(Clone, Copy, Debug, PartialEq)]
pub struct Setting {
    pub params: Params,
    pub running: bool,
    pub unused: [u8; 7],
}

/// All of a histogram but its bins.
#[repr(C)]
#[derive(Clone, Copy, Debug, PartialEq)]
pub struct Totals {
    pub sum: u64,
    pub total: u32,
    pub lowest: u16,
    pub highest: u16,
}

/// What a happening changes.
#[repr(C)]
#[derive(Clone, Copy, Debug, PartialEq)]
pub struct Live {
    pub device: Device,
    pub master: Master,
    pub unused: u32,
    pub totals: Totals,
}

/// A port with both its ends.
#[repr(C)]
#[derive(Clone, Copy, Debug, PartialEq)]
pub struct Port {
    pub setting: Setting,
    pub live: Live,
    pub bins: [u32; 32],
}

/// Ports 1 to 8.
#[repr(C)]
#[derive(Clone, Copy, Debug, PartialEq)]
pub struct Bench {
    pub ports: [Port; 8],
}

/// What a call with a reading says. Marks: 0 fresh octets, 1 release goes on, 2 safe values, 3 nothing.
#[repr(C)]
#[derive(Clone, Copy, Debug, PartialEq)]
pub struct ReplyTold {
    pub number: u8,
    pub offset: u8,
    pub master: u8,
    pub device: u8,
    pub master_releases: bool,
    pub device_releases: bool,
    pub unused: [u8; 2],
}

#[repr(C)]
#[derive(Clone, Copy, Debug, PartialEq)]
pub struct BenchTold {
    pub bench: Bench,
    pub reply: ReplyTold,
}

/// The lengths of an incoming image's two parts.
#[repr(C)]
#[derive(Clone, Copy, Debug, PartialEq)]
pub struct SplitTold {
    pub spdu: usize,
    pub other: usize,
    pub number: u8,
    pub unused: [u8; 7],
}

#[repr(C)]
#[derive(Clone, Copy, Debug, PartialEq)]
pub struct HandedTold {
    pub octets: usize,
    pub number: u8,
    pub unused: [u8; 7],
}

#[repr(C)]
#[derive(Clone, Copy, Debug, PartialEq)]
pub struct BinsTold {
    pub bins: [u32; 32],
    pub total: u32,
    pub number: u8,
    pub frozen: bool,
    pub unused: [u8; 2],
}

#[repr(C)]
#[derive(Clone, Copy, Debug, PartialEq)]
pub struct MasterTold {
    pub master: Master,
    pub number: u8,
    pub unused: [u8; 3],
}

#[repr(C)]
#[derive(Clone, Copy, Debug, PartialEq)]
pub struct DeviceTold {
    pub device: Device,
    pub number: u8,
    pub unused: [u8; 3],
}

/// How far a session has come.
#[repr(C)]
#[derive(Clone, Copy, Debug, PartialEq)]
pub struct State {
    pub bench: Bench,
    pub records: u64,
    pub refused: u64,
}

/// After a chunk. Stops: 0 a whole record, 1 no record, 2 a record cut short, 3 no octets.
#[repr(C)]
#[derive(Clone, Copy, Debug, PartialEq)]
pub struct FedTold {
    pub state: State,
    pub used: usize,
    pub written: usize,
    pub stop: u8,
    pub unused: [u8; 7],
}

// No exported function asks anything of the values it is given, so each call below needs only
// references that hold, and a pointer and a length that come from one slice.

pub fn table16(table: &mut [u16; 256]) {
    unsafe { whakelouna_table16(table) }
}

pub fn table32(table: &mut [u32; 16]) {
    unsafe { whakelouna_table32(table) }
}

pub fn step16(register: u16, octet: u8) -> u16 {
    unsafe { whakelouna_step16(register, octet) }
}

pub fn step32(register: u32, octet: u8) -> u32 {
    unsafe { whakelouna_step32(register, octet) }
}

pub fn step16_by_shift(register: u16, octet: u8) -> u16 {
    unsafe { whakelouna_step16_by_shift(register, octet) }
}

pub fn step32_by_shift(register: u32, octet: u8) -> u32 {
    unsafe { whakelouna_step32_by_shift(register, octet) }
}

pub fn signature16(seed: u16, octets: &[u8]) -> u16 {
    unsafe { whakelouna_signature16(seed, octets.as_ptr(), octets.len()) }
}

pub fn signature32(seed: u32, octets: &[u8]) -> u32 {
    unsafe { whakelouna_signature32(seed, octets.as_ptr(), octets.len()) }
}

pub fn signature16_by_shift(seed: u16, octets: &[u8]) -> u16 {
    unsafe { whakelouna_signature16_by_shift(seed, octets.as_ptr(), octets.len()) }
}

pub fn signature32_by_shift(seed: u32, octets: &[u8]) -> u32 {
    unsafe { whakelouna_signature32_by_shift(seed, octets.as_ptr(), octets.len()) }
}

pub fn signature16_by(table: &[u16; 256], seed: u16, octets: &[u8]) -> u16 {
    unsafe { whakelouna_signature16_by(table, seed, octets.as_ptr(), octets.len()) }
}

pub fn signature32_by(table: &[u32; 16], seed: u32, octets: &[u8]) -> u32 {
    unsafe { whakelouna_signature32_by(table, seed, octets.as_ptr(), octets.len()) }
}

pub fn bin(watchdog: u16, time: u32) -> usize {
    unsafe { whakelouna_bin(watchdog, time) }
}

pub fn frozen(histogram: Histogram) -> bool {
    unsafe { whakelouna_frozen(histogram) }
}

pub fn cleared() -> Histogram {
    unsafe { whakelouna_cleared() }
}

pub fn counted(histogram: Histogram, watchdog: u16, sample: u16) -> Histogram {
    unsafe { whakelouna_counted(histogram, watchdog, sample) }
}

pub fn trend_of(histogram: Histogram) -> Trend {
    unsafe { whakelouna_trend_of(histogram) }
}

pub fn judge_block(shift: bool, octets: &[u8], port: u8) -> BlockAnswer {
    unsafe { whakelouna_judge_block(shift, octets.as_ptr(), octets.len(), port) }
}

pub fn elapsed(now: u32, since: u32) -> u32 {
    unsafe { whakelouna_elapsed(now, since) }
}

pub fn master_first(at: u32) -> Master {
    unsafe { whakelouna_master_first(at) }
}

pub fn master_response(m: Master, w: u16, at: u32, response: Response) -> MasterOutcome {
    unsafe { whakelouna_master_response(m, w, at, response) }
}

pub fn master_clock(m: Master, w: u16, at: u32) -> MasterOutcome {
    unsafe { whakelouna_master_clock(m, w, at) }
}

pub fn master_operator(m: Master, w: u16, at: u32, set_sd_c: bool, ack_c: bool) -> MasterOutcome {
    unsafe { whakelouna_master_operator(m, w, at, set_sd_c, ack_c) }
}

pub fn device_first(at: u32) -> Device {
    unsafe { whakelouna_device_first(at) }
}

pub fn device_request(d: Device, w: u16, at: u32, request: Request) -> DeviceOutcome {
    unsafe { whakelouna_device_request(d, w, at, request) }
}

pub fn device_clock(d: Device, w: u16, at: u32) -> DeviceOutcome {
    unsafe { whakelouna_device_clock(d, w, at) }
}

// The bench is passed by value; the caller's copy stays as it is.

pub fn new_bench() -> Bench {
    unsafe { whakelouna_new_bench() }
}

pub fn set_parameters(shift: bool, bench: &Bench, port: u8, at: u32, octets: &[u8]) -> BenchTold {
    unsafe { whakelouna_set_parameters(shift, *bench, port, at, octets.as_ptr(), octets.len()) }
}

pub fn receive_response(
    shift: bool,
    bench: &Bench,
    port: u8,
    at: u32,
    spdu: &[u8],
    safe: &[u8],
) -> BenchTold {
    let (octets, zeros) = (spdu.as_ptr(), safe.as_ptr());
    unsafe {
        whakelouna_receive_response(shift, *bench, port, at, octets, spdu.len(), zeros, safe.len())
    }
}

pub fn receive_request(
    shift: bool,
    bench: &Bench,
    port: u8,
    at: u32,
    spdu: &[u8],
    safe: &[u8],
) -> BenchTold {
    let (octets, zeros) = (spdu.as_ptr(), safe.as_ptr());
    unsafe {
        whakelouna_receive_request(shift, *bench, port, at, octets, spdu.len(), zeros, safe.len())
    }
}

pub fn clock(bench: &Bench, port: u8, at: u32, safe_in: &[u8], safe_out: &[u8]) -> BenchTold {
    let (zeros_in, zeros_out) = (safe_in.as_ptr(), safe_out.as_ptr());
    unsafe {
        whakelouna_clock(*bench, port, at, zeros_in, safe_in.len(), zeros_out, safe_out.len())
    }
}

/// `signals` are setSD_C and ChFAck_C.
pub fn operator(bench: &Bench, port: u8, at: u32, signals: [bool; 2], safe: &[u8]) -> BenchTold {
    let zeros = safe.as_ptr();
    unsafe { whakelouna_operator(*bench, port, at, signals[0], signals[1], zeros, safe.len()) }
}

pub fn compose(
    shift: bool,
    bench: &Bench,
    port: u8,
    process: &[u8],
    other: &[u8],
    octets: &mut [u8],
) -> u8 {
    unsafe {
        whakelouna_compose(
            shift,
            *bench,
            port,
            process.as_ptr(),
            process.len(),
            other.as_ptr(),
            other.len(),
            octets.as_mut_ptr(),
            octets.len(),
        )
    }
}

pub fn build_response(shift: bool, bench: &Bench, port: u8, process: &[u8], out: &mut [u8]) -> u8 {
    unsafe {
        whakelouna_build_response(
            shift,
            *bench,
            port,
            process.as_ptr(),
            process.len(),
            out.as_mut_ptr(),
            out.len(),
        )
    }
}

pub fn split(bench: &Bench, port: u8, octets: &[u8]) -> SplitTold {
    unsafe { whakelouna_split(*bench, port, octets.as_ptr(), octets.len()) }
}

pub fn handed_on(
    shift: bool,
    bench: &Bench,
    port: u8,
    device: bool,
    mark: u8,
    spdu: &[u8],
    safe: &[u8],
    out: &mut [u8],
) -> HandedTold {
    unsafe {
        whakelouna_handed_on(
            shift,
            *bench,
            port,
            device,
            mark,
            spdu.as_ptr(),
            spdu.len(),
            safe.as_ptr(),
            safe.len(),
            out.as_mut_ptr(),
            out.len(),
        )
    }
}

pub fn trend(bench: &Bench, port: u8) -> Trend {
    unsafe { whakelouna_trend(*bench, port) }
}

pub fn bins(bench: &Bench, port: u8) -> BinsTold {
    unsafe { whakelouna_bins(*bench, port) }
}

pub fn master(bench: &Bench, port: u8) -> MasterTold {
    unsafe { whakelouna_master(*bench, port) }
}

pub fn device(bench: &Bench, port: u8) -> DeviceTold {
    unsafe { whakelouna_device(*bench, port) }
}

pub fn session_start() -> State {
    unsafe { whakelouna_session_start() }
}

pub fn session_feed(shift: bool, state: &State, octets: &[u8], out: &mut [u8]) -> FedTold {
    let (start, length) = (octets.as_ptr(), octets.len());
    unsafe { whakelouna_session_feed(shift, *state, start, length, out.as_mut_ptr(), out.len()) }
}

pub fn session_finish(state: &State, some: bool, out: &mut [u8]) -> usize {
    unsafe { whakelouna_session_finish(*state, some, out.as_mut_ptr(), out.len()) }
}

/// The two signature tables. With `shift` they are lent and not read, whatever they hold.
pub struct Tables {
    pub short: [u16; 256],
    pub long: [u32; 16],
}

impl Tables {
    pub fn new() -> Tables {
        let mut tables = Tables { short: [0; 256], long: [0; 16] };
        table16(&mut tables.short);
        table32(&mut tables.long);
        tables
    }

    pub fn read_request(&self, shift: bool, params: Params, octets: &[u8]) -> Request {
        let Tables { short, long } = self;
        unsafe {
            whakelouna_read_request_by(shift, short, long, params, octets.as_ptr(), octets.len())
        }
    }

    pub fn read_response(&self, shift: bool, params: Params, octets: &[u8]) -> Response {
        let Tables { short, long } = self;
        unsafe {
            whakelouna_read_response_by(shift, short, long, params, octets.as_ptr(), octets.len())
        }
    }

    /// `marks` are setSD and ChFAckReq.
    pub fn build_request(
        &self,
        shift: bool,
        params: Params,
        mcount: u8,
        marks: [bool; 2],
        process: &[u8],
        out: &mut [u8],
    ) -> u8 {
        unsafe {
            whakelouna_build_request_by(
                shift,
                &self.short,
                &self.long,
                params,
                mcount,
                marks[0],
                marks[1],
                process.as_ptr(),
                process.len(),
                out.as_mut_ptr(),
                out.len(),
            )
        }
    }

    /// `marks` are SDset, DCommErr and DTimeout.
    pub fn build_response(
        &self,
        shift: bool,
        params: Params,
        responded: bool,
        dcount_i: u8,
        marks: [bool; 3],
        process: &[u8],
        out: &mut [u8],
    ) -> u8 {
        unsafe {
            whakelouna_build_response_by(
                shift,
                &self.short,
                &self.long,
                params,
                responded,
                dcount_i,
                marks[0],
                marks[1],
                marks[2],
                process.as_ptr(),
                process.len(),
                out.as_mut_ptr(),
                out.len(),
            )
        }
    }
}
