// Why the FS-Master's end of a port holds safe values after a record, in words.

use super::ends::{Ends, Told};
use crate::model::machines::MasterModel;
use crate::model::session::{Record, OPERATOR, PARAMETERS, SPDU};
use crate::model::spdu::{Direction, Fields};

/// Where the machine of 000 Table 38 waits between two calls: for the first response, for the next, and for the next after a fault.
const START_UP: u8 = 2;
const REGULAR: u8 = 5;

/// The rows that the watchdog leads to.
const WATCHDOG: [usize; 2] = [8, 14];

/// What an SPDU says of itself, before it is admitted.
pub struct Arrived {
    fields: Option<Fields>,
    /// The count that the FS-Master awaits, before the watchdog is looked at.
    awaited: u8,
}

impl Arrived {
    pub fn of(ends: &Ends, record: &Record) -> Arrived {
        let format = ends.bench().format(record.port, Direction::Response);
        let fields =
            format.filter(|_| record.kind == SPDU).map(|format| format.read(&record.octets));
        Arrived { fields, awaited: 7 - ends.bench().m_count(record.port) }
    }

    fn sd_set(&self) -> bool {
        self.fields.as_ref().map_or(false, |fields| fields.marks[0])
    }

    /// The fault that T7 or T12 took it for: in the order of the checks, then what the FS-Device reports.
    fn fault(&self, rows: &[usize]) -> Option<&'static str> {
        let fields = self.fields.as_ref().filter(|_| rows.contains(&7) || rows.contains(&12))?;
        // T8 and T14 send 0.
        let awaited = if expired(rows) { 7 } else { self.awaited };
        let faults = [
            (!fields.signature_holds, "wrong signature"),
            (!fields.port_holds, "wrong port number"),
            (fields.count != awaited, "wrong count"),
            (fields.marks[1] && fields.marks[2], "the FS-Device reports DCommErr and DTimeout"),
            (fields.marks[1], "the FS-Device reports DCommErr"),
            (fields.marks[2], "the FS-Device reports DTimeout"),
        ];
        faults.into_iter().find(|(holds, _)| *holds).map(|(_, name)| name)
    }
}

fn expired(rows: &[usize]) -> bool {
    rows.iter().any(|row| WATCHDOG.contains(row))
}

/// Whether an SPDU was admitted: by a row that is not the watchdog's.
pub fn arrived(rows: &[usize]) -> bool {
    rows.iter().any(|row| !WATCHDOG.contains(row))
}

/// What of a port's history its machine does not keep.
#[derive(Clone, Default)]
struct History {
    /// The last fault, and the number of its record.
    fault: String,
    fault_at: u64,
    /// SDset of the last response that was admitted.
    sd_set: bool,
    /// ChFAck_C as it is; whether a response was admitted since it went to 1; and whether it went back to 0 before one was.
    ack: bool,
    ack_seen: bool,
    ack_missed: bool,
}

impl History {
    fn responded(&mut self, sd_set: bool) {
        self.sd_set = sd_set;
        self.ack_seen |= self.ack;
    }

    /// A fault asks for an acknowledgement of its own.
    fn failed(&mut self, number: u64, faults: &[&str]) {
        self.fault = faults.join(", ");
        self.fault_at = number;
        self.ack_missed = false;
    }

    fn operated(&mut self, ack: bool) {
        if ack != self.ack {
            self.ack_missed = !ack && !self.ack_seen;
            self.ack_seen = false;
        }
        self.ack = ack;
    }
}

/// The histories of all ports.
pub struct Histories {
    ports: Vec<History>,
}

impl Histories {
    pub fn new() -> Histories {
        Histories { ports: vec![History::default(); 256] }
    }

    /// Takes in what the record of this number did, which was not refused. The watchdog is looked at before a signal is kept.
    pub fn take(&mut self, number: u64, record: &Record, spdu: &Arrived, told: &Told) {
        let port = &mut self.ports[usize::from(record.port)];
        if arrived(&told.rows) {
            port.responded(spdu.sd_set());
        }
        let watchdog = Some("watchdog").filter(|_| expired(&told.rows));
        let faults: Vec<&str> = watchdog.into_iter().chain(spdu.fault(&told.rows)).collect();
        if !faults.is_empty() {
            port.failed(number, &faults);
        }
        match record.kind {
            PARAMETERS => *port = History::default(),
            OPERATOR => port.operated(told.master.ack_c),
            _ => (),
        }
    }

    /// Why the port holds safe values after the record of this number.
    pub fn why(&self, number: u64, port: u8, master: &MasterModel) -> String {
        let history = &self.ports[usize::from(port)];
        match master.state {
            START_UP => "start-up, no response has passed since the block".to_string(),
            REGULAR => signals(history, master),
            _ => fault(history, number) + &acknowledgement(history, master),
        }
    }
}

fn fault(history: &History, number: u64) -> String {
    match history.fault_at {
        at if at == number => history.fault.clone(),
        at => format!("{} in record {at}", history.fault),
    }
}

/// What keeps the values safe though there is no fault: signals of the last response that was admitted.
fn signals(history: &History, master: &MasterModel) -> String {
    let causes = [(master.set_sd, "setSD_C"), (history.sd_set, "the FS-Device's SDset")];
    let causes = causes.into_iter().filter(|(holds, _)| *holds).map(|(_, name)| name);
    causes.collect::<Vec<_>>().join(" and ")
}

/// What a fault that is over waits for, and what became of the operator's ChFAck_C.
fn acknowledgement(history: &History, master: &MasterModel) -> String {
    let waits = master.request_s;
    let facts = [
        (waits, "waiting for acknowledgement, ChFAckReq_S is 1"),
        (waits && master.ack_c && master.edge, "ChFAck_C is 1, for the next response that passes"),
        (
            waits && master.ack_c && !master.edge,
            "ChFAck_C is 1, and no response has passed at 0 since the fault",
        ),
        (history.ack_missed, "ChFAck_C was 1 and 0 again, and no response was admitted in between"),
    ];
    let facts = facts.into_iter().filter(|(holds, _)| *holds);
    facts.map(|(_, words)| format!("; {words}")).collect()
}
