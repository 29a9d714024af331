// Runs of one port whose course document 01 and the rows of Tables 38 and 40 fix: what is known of them is compared besides
// what the model says.

use crate::bench_pair::{Lent, Pair};
use crate::block_for;
use crate::engines::ENGINES;
use crate::library::{self, ReplyTold, Totals};
use crate::model::bench::Reply;
use crate::model::histogram::{Earlier, Point, LIMIT};
use crate::model::spdu::Direction;
use crate::random::Random;
use crate::ROWS;

const FRESH: u8 = 0;
const GOES_ON: u8 = 1;
const SAFE: u8 = 2;

const W: u16 = 100;

pub struct Runs<'a> {
    pub pair: &'a mut Pair,
    pub random: &'a mut Random,
    pub port: u8,
    pub at: u32,
}

impl Runs<'_> {
    pub fn run(&mut self) {
        for port in 1..=8 {
            self.port = port;
            for _ in 0..12 {
                self.whole_session();
                self.two_samples();
                self.stopped_by_hand();
            }
            for short in 0..4 {
                for _ in 0..8 {
                    self.into_the_limit(short);
                }
            }
        }
    }

    // Steps.

    fn start(&mut self, at: u32, w: u16) {
        self.pair.start();
        self.at = at;
        self.block(w);
    }

    fn block(&mut self, w: u16) {
        let block = block_for(self.random, self.port, w);
        self.pair.set_parameters(self.port, self.at, &block);
    }

    fn wait(&mut self, time: u32) {
        self.at = self.at.wrapping_add(time);
    }

    fn process_octets(&self, direction: Direction) -> usize {
        let format = self.pair.model.format(self.port, direction).unwrap();
        usize::from(format.length) - format.safety_octets()
    }

    fn safe(&self, direction: Direction) -> Vec<u8> {
        vec![0; self.process_octets(direction)]
    }

    fn other(&mut self, direction: Direction) -> Vec<u8> {
        let size = self.pair.model.other_octets(self.port, direction).unwrap();
        self.random.octets(size)
    }

    fn request(&mut self) -> Vec<u8> {
        let process = self.process_octets(Direction::Request);
        let process = self.random.octets(process);
        let other = self.other(Direction::Request);
        let length = self.pair.model.format(self.port, Direction::Request).unwrap().length.into();
        let lent = Lent::new(self.random, length + other.len());
        let mut image = self.pair.compose(self.port, &process, &other, lent).unwrap();
        image.truncate(length);
        image
    }

    /// The FS-Device's SPDU, through an image that is split.
    fn response(&mut self) -> Vec<u8> {
        let process = self.process_octets(Direction::Response);
        let process = self.random.octets(process);
        let length = self.pair.model.format(self.port, Direction::Response).unwrap().length.into();
        let lent = Lent::new(self.random, length);
        let mut image = self.pair.build_response(self.port, &process, lent).unwrap();
        image.extend(self.other(Direction::Response));
        let (spdu, _) = self.pair.split(self.port, &image);
        image.truncate(spdu);
        image
    }

    fn to_device(&mut self, spdu: &[u8]) -> Reply {
        let safe = self.safe(Direction::Request);
        self.pair.receive_request(self.port, self.at, spdu, &safe)
    }

    fn to_master(&mut self, spdu: &[u8]) -> Reply {
        let safe = self.safe(Direction::Response);
        self.pair.receive_response(self.port, self.at, spdu, &safe)
    }

    /// A whole cycle; what is said when the response is taken.
    fn exchange(&mut self, time: u32) -> Reply {
        let request = self.request();
        self.to_device(&request);
        let response = self.response();
        self.wait(time);
        self.to_master(&response)
    }

    fn tick(&mut self, time: u32) -> Reply {
        self.wait(time);
        let (safe_in, safe_out) = (self.safe(Direction::Response), self.safe(Direction::Request));
        self.pair.clock(self.port, self.at, &safe_in, &safe_out)
    }

    /// setSD_C and ChFAck_C.
    fn operator(&mut self, signals: [bool; 2]) {
        let safe = self.safe(Direction::Response);
        self.pair.operator(self.port, self.at, signals, &safe);
    }

    /// What is known of a taken call: the marks and the releases of both ends.
    fn known(&mut self, place: &str, marks: [u8; 2], releases: [bool; 2], reply: Reply) {
        let known = Reply { number: 0, offset: 0, marks, releases };
        self.pair.compare(place, self.port, known, reply);
    }

    fn total(&self) -> u32 {
        library::bins(&self.pair.bench, self.port).total
    }

    fn known_total(&mut self, place: &str, total: u32) {
        let found = self.total();
        self.pair.compare(place, self.port, total, found);
    }

    // Runs.

    /// Start-up, a repeated response, a damaged response, a damaged request and a silence, with release again after each. The
    /// clock wraps in it, and every row acts.
    fn whole_session(&mut self) {
        self.pair.start();
        let before = self.pair.rows;
        self.start(4_294_967_294, W);
        self.start_up();
        self.first_release();
        self.repeated();
        self.safe_by_operator();
        self.damaged_response();
        self.damaged_request();
        self.silence();
        self.pair.show(self.port);
        self.pair.take_rows();
        for row in ROWS {
            let acted = self.pair.rows[row] > before[row];
            self.pair.compare(&format!("T{row} in a session"), self.port, true, acted);
        }
    }

    /// The FS-Device counts SDcycles down from 3. Its responses pass and are no samples.
    fn start_up(&mut self) {
        for _ in 0..3 {
            let reply = self.exchange(2);
            self.known("start-up", [SAFE, SAFE], [false, false], reply);
        }
        self.known_total("samples of the start-up", 0);
    }

    /// It releases with the fourth request; its fourth response lets the FS-Master release, and is a sample.
    fn first_release(&mut self) {
        let reply = self.exchange(2);
        self.known("first release", [FRESH, GOES_ON], [true, true], reply);
        self.known_total("sample of the first release", 1);
        let reply = self.tick(5);
        self.known("clock", [GOES_ON, GOES_ON], [true, true], reply);
    }

    /// A response read again is no sample and no fault; an SPDU of zeros neither.
    fn repeated(&mut self) {
        let request = self.request();
        self.to_device(&request);
        let response = self.response();
        let reply = self.to_master(&response);
        self.known("response", [FRESH, GOES_ON], [true, true], reply);
        self.known_total("samples before the repeated one", 2);
        self.wait(1);
        for spdu in [&response, &vec![0; response.len()]] {
            let reply = self.to_master(spdu);
            self.known("repeated response", [GOES_ON, GOES_ON], [true, true], reply);
        }
        for spdu in [&request, &vec![0; request.len()]] {
            let reply = self.to_device(spdu);
            self.known("repeated request", [GOES_ON, GOES_ON], [true, true], reply);
        }
        self.known_total("samples after the repeated one", 2);
    }

    /// While setSD_C is 1 responses pass and are no samples. Both ends return by themselves: the FS-Master in the first response
    /// that finds it 0, the FS-Device with the request behind that.
    fn safe_by_operator(&mut self) {
        let total = self.total();
        self.operator([true, false]);
        for _ in 0..3 {
            let releases = self.exchange(2).releases[0];
            self.pair.compare("setSD_C", self.port, false, releases);
        }
        self.known_total("samples while setSD_C is 1", total);
        self.operator([false, false]);
        let reply = self.exchange(2);
        self.known("setSD_C is 0 again", [FRESH, SAFE], [true, false], reply);
        let reply = self.exchange(2);
        self.known("both release again", [FRESH, GOES_ON], [true, true], reply);
        self.known_total("samples after setSD_C", total + 2);
    }

    fn damaged_response(&mut self) {
        let request = self.request();
        let reply = self.to_device(&request);
        self.known("request", [GOES_ON, FRESH], [true, true], reply);
        let mut response = self.response();
        *response.last_mut().unwrap() ^= 1;
        let reply = self.to_master(&response);
        self.known("damaged response", [SAFE, GOES_ON], [false, true], reply);
        self.acknowledged();
    }

    fn damaged_request(&mut self) {
        let mut request = self.request();
        *request.last_mut().unwrap() ^= 1;
        let reply = self.to_device(&request);
        self.known("damaged request", [GOES_ON, SAFE], [true, false], reply);
        let response = self.response();
        let reply = self.to_master(&response);
        self.known("DCommErr", [SAFE, SAFE], [false, false], reply);
        self.acknowledged();
    }

    /// "elapsed 100 passes, 101 has expired": the FS-Device's timer is one ms ahead.
    fn silence(&mut self) {
        self.exchange(1);
        let reply = self.tick(u32::from(W) - 1);
        self.known("W at the FS-Device", [GOES_ON, GOES_ON], [true, true], reply);
        let reply = self.tick(1);
        self.known("W at the FS-Master", [GOES_ON, SAFE], [true, false], reply);
        let reply = self.tick(1);
        self.known("past W", [SAFE, SAFE], [false, false], reply);
        for _ in 0..2 {
            let reply = self.tick(u32::from(W) + 1);
            self.known("past W again", [SAFE, SAFE], [false, false], reply);
        }
        self.acknowledged();
    }

    /// "after a fault .. values return only once ChFAck_C followed ChFAckReq_S". With the acknowledgement the FS-Master
    /// releases; the FS-Device sees setSD until the request after it.
    fn acknowledged(&mut self) {
        let total = self.total();
        for _ in 0..10 {
            let releases = self.exchange(2).releases[0];
            self.pair.compare("no acknowledgement", self.port, false, releases);
        }
        self.known_total("samples before the acknowledgement", total);
        self.operator([false, true]);
        let reply = self.exchange(2);
        self.known("acknowledged", [FRESH, SAFE], [true, false], reply);
        self.known_total("sample of the acknowledgement", total + 1);
        let reply = self.exchange(2);
        self.known("both release", [FRESH, GOES_ON], [true, true], reply);
        self.operator([false, false]);
    }

    /// 01, "Numbers to try": samples 1 and 2 have mean 1.5.
    fn two_samples(&mut self) {
        self.start(4_294_967_290, W);
        self.start_up();
        self.pair.trend(self.port);
        self.exchange(1);
        self.exchange(2);
        self.pair.show(self.port);
        let (number, point) = self.pair.model.trend(self.port);
        let known =
            Point { mean: 1.5f64.to_bits(), lowest: 1f32.to_bits(), highest: 2f32.to_bits() };
        self.pair.compare("two samples", self.port, (0, known), (number, point));
        self.block(W);
        self.pair.show(self.port);
    }

    /// A port that its holder has marked as not running answers 9 to all but a block, stays as it is and shows nothing of
    /// what it holds.
    fn stopped_by_hand(&mut self) {
        self.start(0, W);
        self.exchange(1);
        let request = self.request();
        let response = self.response();
        let (safe_in, safe_out) = (self.safe(Direction::Response), self.safe(Direction::Request));
        let port = self.port;
        let place = usize::from(port) - 1;
        self.pair.model.stop(port);
        self.pair.bench.ports[place].setting.running = false;
        let bench = self.pair.bench;
        let refused = ReplyTold {
            number: 9,
            offset: 0,
            master: 3,
            device: 3,
            master_releases: false,
            device_releases: false,
            unused: [0; 2],
        };
        let responses = ENGINES.map(|shift| {
            library::receive_response(shift, &bench, port, self.at, &response, &safe_in)
        });
        let requests = ENGINES.map(|shift| {
            library::receive_request(shift, &bench, port, self.at, &request, &safe_out)
        });
        let others = [
            library::clock(&bench, port, self.at, &safe_in, &safe_out),
            library::operator(&bench, port, self.at, [false, true], &safe_in),
        ];
        for told in responses.into_iter().chain(requests).chain(others) {
            self.pair.compare("stopped", port, (refused, &bench), (told.reply, &told.bench));
        }
        let lent = Lent::new(self.random, request.len());
        self.pair.compose(port, &safe_out, &[], lent);
        let lent = Lent::new(self.random, response.len());
        self.pair.build_response(port, &safe_in, lent);
        self.pair.split(port, &response);
        self.pair.show(port);
        self.block(W);
        self.pair.show(port);
    }

    /// From a total a few samples short of the limit: bins, total and trend stay once it is reached, the SCL goes on, and a
    /// block clears them.
    fn into_the_limit(&mut self, short: u64) {
        self.start(7, W);
        self.start_up();
        let earlier = self.earlier(LIMIT - short);
        let (lowest, highest) = earlier.ends.unwrap();
        let total = (LIMIT - short) as u32;
        let port = &mut self.pair.bench.ports[usize::from(self.port) - 1];
        port.live.totals = Totals { sum: earlier.sum, total, lowest, highest };
        port.bins = earlier.bins.map(|count| count as u32);
        self.pair.model.put_earlier(self.port, earlier);
        self.pair.expect_again(self.port);
        self.pair.show(self.port);
        for count in 1..=6 {
            let time = self.random.below(usize::from(W) / 2) as u32;
            self.exchange(time);
            self.pair.show(self.port);
            let frozen = library::bins(&self.pair.bench, self.port).frozen;
            self.pair.compare("frozen", self.port, count >= short, frozen);
        }
        let reply = self.exchange(1);
        self.known("frozen", [FRESH, GOES_ON], [true, true], reply);
        self.block(W);
        self.pair.show(self.port);
        self.known_total("after a block", 0);
    }

    /// As many samples in bins that were chosen at random.
    fn earlier(&mut self, total: u64) -> Earlier {
        let one = self.random.below(usize::from(W)) as u16;
        let other = self.random.below(usize::from(W)) as u16;
        let (lowest, highest) = (one.min(other), one.max(other));
        let mut bins = [0; 32];
        let mut left = total;
        for bin in &mut bins[1..] {
            *bin = self.random.number() % (left + 1);
            left -= *bin;
        }
        bins[0] = left;
        let (least, most) = (u64::from(lowest) * total, u64::from(highest) * total);
        let sum = least + self.random.number() % (most - least + 1);
        Earlier { bins, sum, ends: Some((lowest, highest)) }
    }
}
