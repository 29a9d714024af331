// 000 Tables 38 and 40 walked state by state: each numbered transition is one line of a table (source, target) and one
// action, and a call goes on until a wait is reached. The library has no prepare and check states and acts a row at a time.

/// Elapsed time on a clock that wraps, by signed numbers.
pub fn elapsed(now: u32, since: u32) -> u32 {
    (i64::from(now) - i64::from(since)).rem_euclid(1 << 32) as u32
}

fn follows(count: u8) -> u8 {
    [1, 2, 3, 4, 5, 6, 7, 1][usize::from(count)]
}

fn mirror(count: u8) -> u8 {
    !count & 7
}

#[derive(Clone, Copy, Debug, PartialEq)]
pub struct Received {
    pub count: u8,
    /// setSD, ChFAckReq of a request; SDset, DCommErr, DTimeout of a response.
    pub bits: [bool; 3],
    pub port: bool,
    pub signature: bool,
    pub zeros: bool,
}

/// What a call says beside the new state. Rows are 000's numbers, 0 for none; checks 0 none, 1 signature, 2 port, 3 count;
/// marks 0 fresh, 1 goes on, 2 safe.
#[derive(Clone, Copy, Debug, Default, PartialEq)]
pub struct Said {
    pub watchdog: u8,
    pub arrival: u8,
    pub check: u8,
    pub old: bool,
    pub passed: bool,
    pub mark: u8,
}

fn first_failed(received: &Received, count_agrees: bool) -> u8 {
    let agree = [received.signature, received.port, count_agrees];
    agree.iter().position(|&agrees| !agrees).map_or(0, |place| place as u8 + 1)
}

fn mark(fresh: bool, released: bool) -> u8 {
    match (fresh, released) {
        (true, true) => 0,
        (false, true) => 1,
        (_, false) => 2,
    }
}

#[derive(Clone, Copy, Debug, PartialEq)]
pub struct MasterModel {
    pub state: u8,
    pub m_count: u8,
    pub set_sd: bool,
    pub sd_set_s: bool,
    pub request: bool,
    pub request_s: bool,
    pub edge: bool,
    pub set_sd_c: bool,
    pub ack_c: bool,
    /// The count that the previous response carried, and the count awaited of it.
    pub previous: Option<(u16, u16)>,
    pub timer: Option<u32>,
    pub start: u32,
    pub uses_pd: bool,
}

impl MasterModel {
    pub fn after_block(at: u32) -> MasterModel {
        let mut model = MasterModel {
            state: 0,
            m_count: 0,
            set_sd: false,
            sd_set_s: false,
            request: false,
            request_s: false,
            edge: false,
            set_sd_c: false,
            ack_c: false,
            previous: None,
            timer: None,
            start: at,
            uses_pd: false,
        };
        model.transition(1, at, false);
        model.transition(2, at, false);
        model
    }

    fn transition(&mut self, number: u8, at: u32, sd_set: bool) {
        let (source, target) = [
            (0, 1),
            (1, 2),
            (2, 3),
            (3, 4),
            (4, 5),
            (5, 3),
            (3, 6),
            (5, 6),
            (6, 7),
            (7, 8),
            (8, 4),
            (8, 6),
            (8, 6),
            (7, 6),
        ][usize::from(number) - 1];
        assert_eq!(self.state, source, "T{number}");
        self.state = target;
        if matches!(number, 11 | 12 | 14) {
            self.request = false;
            self.request_s = false;
            self.edge = false;
        }
        if number == 13 {
            self.request = true;
            self.request_s = true;
            if !self.ack_c {
                self.edge = true;
            }
        }
        if matches!(number, 1 | 7 | 8 | 12 | 13 | 14) {
            self.uses_pd = false;
            self.set_sd = true;
            self.sd_set_s = true;
        }
        let count = match number {
            1 | 8 | 14 => 0,
            4 | 7 | 11 | 12 | 13 => follows(self.m_count),
            _ => self.m_count,
        };
        if count != self.m_count {
            self.start = at;
        }
        self.m_count = count;
        if matches!(number, 4 | 11) {
            self.sd_set_s = sd_set || self.set_sd_c;
            self.uses_pd = !self.sd_set_s;
            self.set_sd = self.set_sd_c;
        }
        if matches!(number, 5 | 9) {
            self.timer = Some(at);
        }
    }

    fn judge(&mut self, w: u16, at: u32) -> u8 {
        let over = self.timer.map_or(false, |since| elapsed(at, since) > u32::from(w));
        let row = match (over, self.state) {
            (true, 5) => 8,
            (true, 7) => 14,
            _ => return 0,
        };
        self.transition(row, at, false);
        self.transition(9, at, false);
        row
    }

    pub fn quiet(&mut self, w: u16, at: u32) -> Said {
        let watchdog = self.judge(w, at);
        Said { watchdog, mark: mark(false, self.uses_pd), ..Said::default() }
    }

    pub fn operator(&mut self, w: u16, at: u32, set_sd_c: bool, ack_c: bool) -> Said {
        let said = self.quiet(w, at);
        self.set_sd_c = set_sd_c;
        self.ack_c = ack_c;
        said
    }

    pub fn response(&mut self, w: u16, at: u32, received: &Received) -> Said {
        let quiet = self.quiet(w, at);
        if received.zeros {
            return quiet;
        }
        let expected = received.count == mirror(self.m_count);
        let old = self.previous.map_or(false, |(a, b)| [a, b].contains(&received.count.into()));
        let entry = match self.state {
            2 if expected => 3,
            5 if !old => 6,
            7 if !old => 10,
            7 if self.m_count == 0 && received.count == 7 => 10,
            _ => return Said { old, ..quiet },
        };
        let awaited = mirror(self.m_count);
        self.transition(entry, at, false);
        self.previous = Some((received.count.into(), awaited.into()));
        let [sd_set, d_comm_err, d_timeout] = received.bits;
        let check = first_failed(received, expected);
        let faults = check != 0 || d_comm_err || d_timeout;
        let row = match (self.state, faults) {
            (3, false) => 4,
            (3, true) => 7,
            (_, true) => 12,
            _ if self.ack_c && self.edge => 11,
            _ => 13,
        };
        self.transition(row, at, sd_set);
        self.transition(if self.state == 4 { 5 } else { 9 }, at, false);
        let mark = mark(true, self.uses_pd);
        Said { arrival: row, check, old, passed: check == 0, mark, ..quiet }
    }
}

#[derive(Clone, Copy, Debug, PartialEq)]
pub struct DeviceModel {
    pub state: u8,
    pub sd_cycles: u8,
    pub comm_err_count: u16,
    pub timeout_count: u16,
    pub d_comm_err: bool,
    pub d_timeout: bool,
    pub sd_set: bool,
    pub set_sd_dc: bool,
    pub request_dc: bool,
    pub d_count_i: u8,
    pub m_count: u8,
    pub timer: Option<u32>,
    pub uses_pd: bool,
    pub responded: bool,
}

impl DeviceModel {
    pub fn after_block() -> DeviceModel {
        let mut model = DeviceModel {
            state: 20,
            sd_cycles: 3,
            comm_err_count: 0,
            timeout_count: 0,
            d_comm_err: false,
            d_timeout: false,
            sd_set: true,
            set_sd_dc: true,
            request_dc: false,
            d_count_i: 0,
            m_count: 0,
            timer: None,
            uses_pd: false,
            responded: false,
        };
        model.transition(20, 0, false, false);
        model
    }

    fn transition(&mut self, number: u8, at: u32, set_sd: bool, comm_err: bool) {
        let (source, target) = [
            (20, 21),
            (21, 22),
            (22, 23),
            (23, 24),
            (24, 22),
            (22, 25),
            (25, 26),
            (26, 27),
            (27, 23),
            (27, 25),
            (26, 25),
            (24, 25),
        ][usize::from(number) - 20];
        assert_eq!(self.state, source, "T{number}");
        self.state = target;
        if matches!(number, 20 | 21 | 23 | 24 | 26 | 27) {
            return;
        }
        self.responded = true;
        self.d_count_i = mirror(self.m_count);
        self.timer = Some(at);
        self.uses_pd = false;
        match number {
            22 => {
                self.d_comm_err = false;
                self.d_timeout = false;
                if self.sd_cycles != 0 {
                    self.set_sd_dc = true;
                    self.sd_set = true;
                    self.sd_cycles -= 1;
                } else {
                    self.uses_pd = true;
                    self.set_sd_dc = false;
                    self.sd_set = false;
                }
                if set_sd {
                    self.uses_pd = false;
                    self.set_sd_dc = true;
                }
            }
            25 => {
                self.sd_set = true;
                self.d_comm_err = true;
                self.comm_err_count = 1;
                self.sd_cycles = 3;
            }
            28 => {
                self.set_sd_dc = false;
                self.sd_set = false;
                self.d_comm_err = false;
                self.d_timeout = false;
            }
            29 => {
                self.set_sd_dc = true;
                self.sd_set = true;
                if comm_err {
                    self.d_comm_err = true;
                    self.comm_err_count = 1;
                    self.sd_cycles = 3;
                } else {
                    self.sd_cycles -= 1;
                }
                if self.comm_err_count == 1 {
                    self.d_comm_err = true;
                    self.comm_err_count = 0;
                } else {
                    self.d_comm_err = false;
                }
                if self.timeout_count == 1 {
                    self.d_timeout = true;
                    self.timeout_count = 0;
                } else {
                    self.d_timeout = false;
                }
            }
            _ => {
                self.set_sd_dc = true;
                self.sd_set = true;
                self.d_timeout = true;
                self.timeout_count = 1;
                self.sd_cycles = 3;
            }
        }
    }

    fn judge(&mut self, w: u16, at: u32) -> u8 {
        let over = self.timer.map_or(false, |since| elapsed(at, since) > u32::from(w));
        let row = match (over, self.state) {
            (true, 24) => 31,
            (true, 26) => 30,
            _ => return 0,
        };
        self.transition(row, at, false, false);
        self.transition(26, at, false, false);
        row
    }

    pub fn quiet(&mut self, w: u16, at: u32) -> Said {
        let watchdog = self.judge(w, at);
        Said { watchdog, mark: mark(false, self.uses_pd), ..Said::default() }
    }

    pub fn request(&mut self, w: u16, at: u32, received: &Received) -> Said {
        let quiet = self.quiet(w, at);
        if received.zeros {
            return quiet;
        }
        let entry = match self.state {
            21 => 21,
            _ if received.count == self.m_count => return Said { old: true, ..quiet },
            24 => 24,
            _ => 27,
        };
        let agrees = received.count == 0 || received.count == follows(self.m_count);
        let check = first_failed(received, agrees);
        self.transition(entry, at, false, false);
        self.m_count = received.count;
        let [set_sd, request, _] = received.bits;
        self.request_dc = request;
        let row = match (self.state, check != 0) {
            (22, false) => 22,
            (22, true) => 25,
            (_, false) if self.sd_cycles == 0 => 28,
            _ => 29,
        };
        self.transition(row, at, set_sd, check != 0);
        self.transition(if self.state == 23 { 23 } else { 26 }, at, false, false);
        let mark = mark(true, self.uses_pd);
        Said { arrival: row, check, old: false, passed: check == 0, mark, ..quiet }
    }
}
