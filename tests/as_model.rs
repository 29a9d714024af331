// What the library hands back, in the model's types.
#![allow(dead_code)]

use crate::library::{Device, Master, Params, Port, TrendPoint};
use crate::model::bench::Shown;
use crate::model::histogram::Point;
use crate::model::machines::{DeviceModel, MasterModel};

/// In the order of 000 Table 22.
pub fn numbers(params: &Params) -> [u32; 26] {
    [
        params.port_mode.into(),
        params.validation_backup.into(),
        params.iq_behavior.into(),
        params.port_cycle_time.into(),
        params.vendor_id.into(),
        params.device_id,
        params.input_data_length.into(),
        params.output_data_length.into(),
        params.fscp_authenticity1,
        params.fscp_authenticity2,
        params.fsp_port.into(),
        params.fsp_prot_version.into(),
        params.fsp_prot_mode.into(),
        params.fsp_watchdog_time.into(),
        params.fsp_tech_par_crc,
        params.io_desc_version.into(),
        params.spdu_in_length.into(),
        params.total_of_in_bits.into(),
        params.total_of_in_octets.into(),
        params.total_of_in_int16.into(),
        params.total_of_in_int32.into(),
        params.spdu_out_length.into(),
        params.total_of_out_bits.into(),
        params.total_of_out_octets.into(),
        params.total_of_out_int16.into(),
        params.total_of_out_int32.into(),
    ]
}

pub fn master_read(m: &Master) -> MasterModel {
    MasterModel {
        state: m.state,
        m_count: m.MCount,
        set_sd: m.setSD,
        sd_set_s: m.SDset_S,
        request: m.ChFAckReq,
        request_s: m.ChFAckReq_S,
        edge: m.ChFAck_C_e,
        set_sd_c: m.setSD_C,
        ack_c: m.ChFAck_C,
        previous: m.previous.then_some((m.carried, m.awaited)),
        timer: m.runs.then_some(m.MTimer),
        start: m.start,
        uses_pd: m.released,
    }
}

pub fn device_read(d: &Device) -> DeviceModel {
    DeviceModel {
        state: d.state,
        sd_cycles: d.SDcycles,
        comm_err_count: d.CommErrCount,
        timeout_count: d.TimeoutCount,
        d_comm_err: d.DCommErr,
        d_timeout: d.DTimeout,
        sd_set: d.SDset,
        set_sd_dc: d.setSD_DC,
        request_dc: d.ChFAckReq_DC,
        d_count_i: d.DCount_i,
        m_count: d.MCount,
        timer: d.runs.then_some(d.DTimer),
        uses_pd: d.released,
        responded: d.responded,
    }
}

pub fn port_read(port: &Port) -> Shown {
    let Port { setting, live, bins } = port;
    Shown {
        running: setting.running,
        parameters: numbers(&setting.params),
        master: master_read(&live.master),
        device: device_read(&live.device),
        bins: bins.map(u64::from),
        total: live.totals.total.into(),
        sum: live.totals.sum,
        lowest: live.totals.lowest,
        highest: live.totals.highest,
    }
}

pub fn point_read(point: &TrendPoint) -> Point {
    Point {
        mean: point.mean.to_bits(),
        lowest: point.lowest.to_bits(),
        highest: point.highest.to_bits(),
    }
}
