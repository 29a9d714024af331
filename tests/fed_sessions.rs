// Sessions fed to the library, whole and in chunks, under each engine: what each call uses up, writes and stops at, every octet of the buffers
// lent, the text and the bench at the end, against the model.

use crate::as_model::port_read;
use crate::comparisons::{octets_text, Comparisons};
use crate::engines::{engine_text, ENGINES};
use crate::library::{session_feed, session_finish, session_start, State};
use crate::model::session::{parts, stop, Parts, Run, Stop};
use crate::random::Random;

/// The room for a line, and for what is printed at the end.
const LINE: usize = 64;
const CLOSING: usize = 1152;
/// Rooms for no line, one, two and three.
const SMALL: [usize; 7] = [0, 63, 64, 65, 127, 128, 200];
/// A session of so many records is fed with more room.
const MANY: usize = 100;
/// The octets on either side of a buffer that is lent.
const GUARD: usize = 16;

pub struct Feeder {
    pub comparisons: Comparisons,
    pub random: Random,
    pub sessions: u64,
    /// How often a session was cut.
    pub cuts: u64,
    pub calls: u64,
    pub samples: u64,
    /// How often each code was printed, each stop given and each row of Tables 38 and 40 acted.
    pub codes: [u64; 14],
    pub stops: [u64; 4],
    pub rows: [u64; 32],
}

/// A session as the model has it: where each whole record ends, the run over them, and what is printed at the end.
struct Course<'a> {
    session: &'a [u8],
    ends: &'a [usize],
    run: &'a Run,
    closing: &'a str,
}

impl Course<'_> {
    /// Where so many records end.
    fn end(&self, records: usize) -> usize {
        records.checked_sub(1).map_or(0, |last| self.ends[last])
    }

    fn text(&self) -> String {
        self.run.lines(0..self.ends.len()) + self.closing
    }
}

/// How far the library has come under an engine, and what it wrote.
struct Place {
    shift: bool,
    state: State,
    taken: usize,
    text: Vec<u8>,
}

/// A buffer with octets on either side of the part that is lent, all of them equal.
struct Lent {
    octets: Vec<u8>,
    room: usize,
}

impl Lent {
    fn new(random: &mut Random, room: usize) -> Lent {
        Lent { octets: vec![random.octet(); GUARD + room + GUARD], room }
    }

    fn part(&mut self) -> &mut [u8] {
        &mut self.octets[GUARD..GUARD + self.room]
    }

    /// With a text at the part's front, which has room for it.
    fn fronted(&self, text: &str) -> Vec<u8> {
        let mut octets = self.octets.clone();
        octets[GUARD..GUARD + text.len()].copy_from_slice(text.as_bytes());
        octets
    }
}

impl Feeder {
    pub fn new(random: Random, comparisons: Comparisons) -> Feeder {
        Feeder {
            comparisons,
            random,
            sessions: 0,
            cuts: 0,
            calls: 0,
            samples: 0,
            codes: [0; 14],
            stops: [0; 4],
            rows: [0; 32],
        }
    }

    /// A session whole and in chunks, behind so many records that were refused. What it prints, by each engine.
    pub fn feed(&mut self, session: &[u8], earlier: u64) -> [String; 2] {
        let Parts { records, rest } = parts(session);
        let mut run = Run::after(earlier);
        records.iter().for_each(|record| run.take(record));
        let ends = ends(records.iter().map(|record| record.size()));
        let closing = run.closing(!rest.is_empty());
        let course = Course { session, ends: &ends, run: &run, closing: &closing };

        self.sessions += 1;
        ENGINES.map(|shift| self.feed_by(shift, &course))
    }

    fn feed_by(&mut self, shift: bool, course: &Course) -> String {
        let (session, records) = (course.session, course.ends.len());
        let enough = LINE * records + self.random.below(LINE);
        let whole = self.run(shift, course, &[session.len()], &[enough]);
        self.compare_bench(course, &whole);
        let (chunks, rooms) = (self.chunks(session.len()), self.rooms(records));
        let in_chunks = self.run(shift, course, &chunks, &rooms);
        let engine = engine_text(shift);
        let inputs = || format!("{engine}, {}, chunks to {chunks:?}", octets_text(session));
        self.comparisons.compare(true, whole.state == in_chunks.state, inputs);

        let text = String::from_utf8_lossy(&whole.text).into_owned();
        self.count(&whole.state, &text, course.run);
        text
    }

    /// A session cut at every octet: torn there, and in two chunks; and fed octet by octet.
    pub fn feed_cut(&mut self, session: &[u8]) {
        let records = parts(session).records;
        let ends = ends(records.iter().map(|record| record.size()));
        let mut runs = vec![Run::new()];
        for record in &records {
            let mut run = runs[runs.len() - 1].clone();
            run.take(record);
            runs.push(run);
        }
        let closings: Vec<[String; 2]> =
            runs.iter().map(|run| [false, true].map(|some| run.closing(some))).collect();
        let course_of = |end: usize| {
            let Parts { records, rest } = parts(&session[..end]);
            let taken = records.len();
            Course {
                session: &session[..end],
                ends: &ends[..taken],
                run: &runs[taken],
                closing: &closings[taken][usize::from(!rest.is_empty())],
            }
        };
        let whole = course_of(session.len());
        let enough = [LINE * (ends.len() + 1)];
        for end in 0..=session.len() {
            let torn = course_of(end);
            for shift in ENGINES {
                self.run(shift, &torn, &[end], &enough);
                self.run(shift, &whole, &[end, session.len()], &enough);
            }
            self.cuts += 1;
        }
        let every: Vec<usize> = (0..=session.len()).collect();
        for shift in ENGINES {
            self.run(shift, &whole, &every, &enough);
        }
    }

    /// Where each chunk ends, of some octets.
    fn chunks(&mut self, octets: usize) -> Vec<usize> {
        let most = [4, 20, 60, 200, 1000][self.random.below(5)].max(octets / 12);
        let mut chunks = vec![0];
        while chunks[chunks.len() - 1] < octets {
            let end = chunks[chunks.len() - 1] + 1 + self.random.below(most);
            chunks.push(end.min(octets));
        }
        chunks
    }

    /// For the lines of some records.
    fn rooms(&mut self, records: usize) -> Vec<usize> {
        match self.random.flag() && records < MANY {
            true => SMALL.to_vec(),
            false => vec![LINE * (1 + records / 2) + self.random.below(LINE)],
        }
    }

    /// As `portbench` does: each chunk behind what the last call left of the one before, until a record is bad; then the end.
    fn run(&mut self, shift: bool, course: &Course, chunks: &[usize], rooms: &[usize]) -> Place {
        let earlier = course.run.counts(0);
        let state = State { records: earlier[0], refused: earlier[1], ..session_start() };
        let mut place = Place { shift, state, taken: 0, text: Vec::new() };
        let mut to = 0;
        'chunks: for &end in chunks {
            to = end;
            loop {
                let room = rooms[self.random.below(rooms.len())];
                match self.take(course, &mut place, to, room) {
                    Stop::Full => (),
                    Stop::Bad => break 'chunks,
                    Stop::Cut | Stop::End => break,
                }
            }
        }
        self.finish(course, &mut place, to);
        place
    }

    /// One call: the octets between the last record taken and `to`, and a buffer of `room` octets.
    fn take(&mut self, course: &Course, place: &mut Place, to: usize, room: usize) -> Stop {
        let chunk = &course.session[course.end(place.taken)..to];
        let mut lent = Lent::new(&mut self.random, room);
        let whole = course.ends.partition_point(|&end| end <= to);
        let taken = whole.min(place.taken + room / LINE);
        let used = course.end(taken) - course.end(place.taken);
        let stop = stop(&chunk[used..]);
        let lines = course.run.lines(place.taken..taken);
        let expected = (course.run.counts(taken), used, lines.len(), stop as u8);
        let fronted = lent.fronted(&lines);

        let told = session_feed(place.shift, &place.state, chunk, lent.part());
        let state = told.state;
        let found = ([state.records, state.refused], told.used, told.written, told.stop);
        let inputs = || {
            let (engine, from) = (engine_text(place.shift), course.end(place.taken));
            let session = octets_text(course.session);
            format!("{engine}, {session}, fed from {from} to {to}, room {room}")
        };
        self.comparisons.compare(expected, found, inputs);
        self.comparisons.compare(&fronted, &lent.octets, inputs);
        place.text.extend(lent.part().iter().take(told.written));
        (place.state, place.taken) = (state, taken);
        self.calls += 1;
        self.stops[stop as usize] += 1;
        stop
    }

    /// The end, every fourth time with too small a buffer first.
    fn finish(&mut self, course: &Course, place: &mut Place, to: usize) {
        let small = (self.random.below(4) == 0).then(|| self.random.below(CLOSING));
        let enough = CLOSING + self.random.below(2);
        let some = course.end(place.taken) < to;
        let engine = engine_text(place.shift);
        let inputs = || format!("{engine}, {}, read to {to}", octets_text(course.session));
        for room in small.into_iter().chain([enough]) {
            let text = if room < CLOSING { "" } else { course.closing };
            let mut lent = Lent::new(&mut self.random, room);
            let fronted = lent.fronted(text);
            let written = session_finish(&place.state, some, lent.part());
            self.comparisons.compare(text.len(), written, inputs);
            self.comparisons.compare(&fronted, &lent.octets, inputs);
            place.text.extend(lent.part().iter().take(written));
        }
        self.comparisons.compare(course.text().as_bytes(), &place.text[..], inputs);
    }

    fn compare_bench(&mut self, course: &Course, place: &Place) {
        let engine = engine_text(place.shift);
        for port in 1..=8 {
            let found = port_read(&place.state.bench.ports[usize::from(port) - 1]);
            let inputs = || format!("{engine}, {}, port {port}", octets_text(course.session));
            self.comparisons.compare(course.run.bench.shown(port), found, inputs);
        }
    }

    /// The rows are the model's, as no text tells them.
    fn count(&mut self, state: &State, text: &str, run: &Run) {
        self.samples +=
            state.bench.ports.iter().map(|p| u64::from(p.live.totals.total)).sum::<u64>();
        for line in text.lines().filter(|line| line.starts_with("r ")) {
            let code = line.rsplit(' ').next().and_then(|code| code.parse::<usize>().ok());
            if let Some(count) = code.and_then(|code| self.codes.get_mut(code)) {
                *count += 1;
            }
        }
        for (count, taken) in self.rows.iter_mut().zip(run.bench.rows) {
            *count += taken;
        }
    }
}

fn ends(sizes: impl Iterator<Item = usize>) -> Vec<usize> {
    sizes
        .scan(0, |end, size| {
            *end += size;
            Some(*end)
        })
        .collect()
}
