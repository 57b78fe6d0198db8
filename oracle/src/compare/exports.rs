//! The port's C interface (crates/c_central): what every call is lent, and the calls.

pub const CORE: usize = 37;
pub const TABLES: usize = 1_152;
pub const STORE: usize = 43_631;
pub const OUTPUT: usize = 16_315;
/// The words of a step: kind, flag, milliseconds, MTU, UUID or address, target, latency, timeout, interval, its value's place
/// and length. An aged wait has the flag, and its age where a Connect has latency (low half) and timeout (high half).
pub const STEP: usize = 12;

/// What a call tells: its refusal, then the numbers of its answer; words that it does not use are 0.
pub type Told = [u64; 8];

/// What the view of a report tells: refusal, whether there is one, time, channel, PDU type, address, place and length of its data,
/// whether it has a scan response, its place and length.
pub type Seen = [u64; 12];

/// What stands there before a call, so that a word that is not written shows.
const UNTOLD: Told = [u64::MAX; 8];

/// What every call is lent.
pub struct Memory {
    pub core: Box<[u64; CORE]>,
    pub tables: Box<[u64; TABLES]>,
    pub store: Vec<u8>,
    pub out: Vec<u8>,
}

unsafe extern "C" {
    fn barleyrope_fresh_with_words(core: &mut [u64; CORE], tables: &mut [u64; TABLES], options: u64);
    fn barleyrope_push_steps_words(
        core: &mut [u64; CORE],
        tables: &mut [u64; TABLES],
        store: *mut u8,
        store_len: usize,
        out: *mut u8,
        out_len: usize,
        at: u64,
        steps: *const u64,
        steps_len: usize,
        count: usize,
        values: *const u8,
        values_len: usize,
        told: &mut Told,
    );
    fn barleyrope_on_timer_words(
        core: &mut [u64; CORE],
        tables: &mut [u64; TABLES],
        store: *mut u8,
        store_len: usize,
        out: *mut u8,
        out_len: usize,
        at: u64,
        told: &mut Told,
    );
    fn barleyrope_on_connected_words(
        core: &mut [u64; CORE],
        tables: &mut [u64; TABLES],
        store: *mut u8,
        store_len: usize,
        out: *mut u8,
        out_len: usize,
        handle: u16,
        at: u64,
        told: &mut Told,
    );
    fn barleyrope_on_fragment_words(
        core: &mut [u64; CORE],
        tables: &mut [u64; TABLES],
        store: *mut u8,
        store_len: usize,
        out: *mut u8,
        out_len: usize,
        at: u64,
        start: bool,
        fragment: *const u8,
        fragment_len: usize,
        told: &mut Told,
    );
    fn barleyrope_on_disconnected_words(
        core: &mut [u64; CORE],
        tables: &mut [u64; TABLES],
        store: *mut u8,
        store_len: usize,
        at: u64,
        told: &mut Told,
    );
    fn barleyrope_on_advertising_words(
        core: &mut [u64; CORE],
        tables: &mut [u64; TABLES],
        store: *mut u8,
        store_len: usize,
        at: u64,
        channel: u8,
        pdu: u8,
        address: u64,
        data: *const u8,
        data_len: usize,
        to_central: bool,
        told: &mut Told,
    );
    fn barleyrope_on_scan_response_words(
        core: &mut [u64; CORE],
        tables: &mut [u64; TABLES],
        store: *mut u8,
        store_len: usize,
        at: u64,
        address: u64,
        data: *const u8,
        data_len: usize,
        told: &mut Told,
    );
    fn barleyrope_timer_us_words(
        core: &[u64; CORE],
        tables: &[u64; TABLES],
        store: *const u8,
        store_len: usize,
        told: &mut Told,
    );
    fn barleyrope_connected_handle_words(
        core: &[u64; CORE],
        tables: &[u64; TABLES],
        store: *const u8,
        store_len: usize,
        told: &mut Told,
    );
    fn barleyrope_result_words(
        core: &[u64; CORE],
        tables: &[u64; TABLES],
        store: *const u8,
        store_len: usize,
        index: u32,
        told: &mut Told,
    );
    fn barleyrope_passed_on_words(
        core: &[u64; CORE],
        tables: &[u64; TABLES],
        store: *const u8,
        store_len: usize,
        index: u32,
        told: &mut Told,
    );
    fn barleyrope_report_words(
        core: &[u64; CORE],
        tables: &[u64; TABLES],
        store: *const u8,
        store_len: usize,
        i: usize,
        told: &mut Seen,
    );
    fn barleyrope_report_data_words(
        core: &[u64; CORE],
        tables: &[u64; TABLES],
        store: *const u8,
        store_len: usize,
        i: usize,
        told: &mut Told,
    );
    fn barleyrope_report_response_words(
        core: &[u64; CORE],
        tables: &[u64; TABLES],
        store: *const u8,
        store_len: usize,
        i: usize,
        told: &mut Told,
    );
    fn barleyrope_report_body_words(
        core: &[u64; CORE],
        tables: &[u64; TABLES],
        store: *const u8,
        store_len: usize,
        i: usize,
        low: u64,
        high: u64,
        told: &mut Told,
    );
    fn barleyrope_report_presence_words(
        core: &[u64; CORE],
        tables: &[u64; TABLES],
        store: *const u8,
        store_len: usize,
        i: usize,
        low: u64,
        high: u64,
        told: &mut Told,
    );
}

impl Memory {
    pub fn new() -> Memory {
        Memory { core: Box::new([0; CORE]), tables: Box::new([0; TABLES]), store: vec![0; STORE], out: vec![0; OUTPUT] }
    }

    /// All 0 is the fresh state; store and output keep their bytes, since no answer may depend on them.
    pub fn clear(&mut self) {
        self.core.fill(0);
        self.tables.fill(0);
    }

    /// The fresh state with these options, whatever stands there.
    pub fn fresh_with(&mut self, options: u64) {
        // SAFETY: nothing is kept.
        unsafe { barleyrope_fresh_with_words(&mut self.core, &mut self.tables, options) }
    }

    pub fn push_steps(&mut self, at: u64, steps: &[u64], count: usize, values: &[u8]) -> Told {
        let mut told = UNTOLD;
        let Memory { core, tables, store: s, out: o } = self;
        // SAFETY: each pointer has its length behind it, in every call of this block of functions; nothing is kept.
        unsafe {
            barleyrope_push_steps_words(
                core,
                tables,
                s.as_mut_ptr(),
                s.len(),
                o.as_mut_ptr(),
                o.len(),
                at,
                steps.as_ptr(),
                steps.len(),
                count,
                values.as_ptr(),
                values.len(),
                &mut told,
            );
        }
        told
    }

    pub fn on_timer(&mut self, at: u64) -> Told {
        let mut told = UNTOLD;
        let Memory { core, tables, store: s, out: o } = self;
        // SAFETY: as above.
        unsafe {
            barleyrope_on_timer_words(core, tables, s.as_mut_ptr(), s.len(), o.as_mut_ptr(), o.len(), at, &mut told);
        }
        told
    }

    pub fn on_connected(&mut self, handle: u16, at: u64) -> Told {
        let mut told = UNTOLD;
        let Memory { core, tables, store: s, out: o } = self;
        let (out, len) = (o.as_mut_ptr(), o.len());
        // SAFETY: as above.
        unsafe { barleyrope_on_connected_words(core, tables, s.as_mut_ptr(), s.len(), out, len, handle, at, &mut told) }
        told
    }

    pub fn on_fragment(&mut self, at: u64, start: bool, data: &[u8]) -> Told {
        let mut told = UNTOLD;
        let Memory { core, tables, store: s, out: o } = self;
        let (out, out_len, fragment, len) = (o.as_mut_ptr(), o.len(), data.as_ptr(), data.len());
        // SAFETY: as above.
        unsafe {
            barleyrope_on_fragment_words(
                core,
                tables,
                s.as_mut_ptr(),
                s.len(),
                out,
                out_len,
                at,
                start,
                fragment,
                len,
                &mut told,
            );
        }
        told
    }

    pub fn on_disconnected(&mut self, at: u64) -> Told {
        let mut told = UNTOLD;
        let Memory { core, tables, store: s, .. } = self;
        // SAFETY: as above.
        unsafe { barleyrope_on_disconnected_words(core, tables, s.as_mut_ptr(), s.len(), at, &mut told) }
        told
    }

    pub fn on_advertising(&mut self, at: u64, seen: (u8, u8, u64), data: &[u8], to_central: bool) -> Told {
        let mut told = UNTOLD;
        let Memory { core, tables, store: s, .. } = self;
        let (channel, pdu, address) = seen;
        // SAFETY: as above.
        unsafe {
            barleyrope_on_advertising_words(
                core,
                tables,
                s.as_mut_ptr(),
                s.len(),
                at,
                channel,
                pdu,
                address,
                data.as_ptr(),
                data.len(),
                to_central,
                &mut told,
            );
        }
        told
    }

    pub fn on_scan_response(&mut self, at: u64, address: u64, data: &[u8]) -> Told {
        let mut told = UNTOLD;
        let Memory { core, tables, store: s, .. } = self;
        let (from, len) = (data.as_ptr(), data.len());
        // SAFETY: as above.
        unsafe {
            barleyrope_on_scan_response_words(core, tables, s.as_mut_ptr(), s.len(), at, address, from, len, &mut told);
        }
        told
    }

    pub fn timer_us(&self) -> Told {
        let mut told = UNTOLD;
        let s = &self.store;
        // SAFETY: as above.
        unsafe { barleyrope_timer_us_words(&self.core, &self.tables, s.as_ptr(), s.len(), &mut told) }
        told
    }

    pub fn connected_handle(&self) -> Told {
        let mut told = UNTOLD;
        let s = &self.store;
        // SAFETY: as above.
        unsafe { barleyrope_connected_handle_words(&self.core, &self.tables, s.as_ptr(), s.len(), &mut told) }
        told
    }

    pub fn result(&self, index: u32) -> Told {
        let mut told = UNTOLD;
        let s = &self.store;
        // SAFETY: as above.
        unsafe { barleyrope_result_words(&self.core, &self.tables, s.as_ptr(), s.len(), index, &mut told) }
        told
    }

    pub fn passed_on(&self, index: u32) -> Told {
        let (mut told, s) = (UNTOLD, &self.store);
        // SAFETY: as above.
        unsafe { barleyrope_passed_on_words(&self.core, &self.tables, s.as_ptr(), s.len(), index, &mut told) }
        told
    }

    pub fn report(&self, i: usize) -> Seen {
        let (mut told, s) = ([u64::MAX; 12], &self.store);
        // SAFETY: as above.
        unsafe { barleyrope_report_words(&self.core, &self.tables, s.as_ptr(), s.len(), i, &mut told) }
        told
    }

    pub fn report_data(&self, i: usize) -> Told {
        let (mut told, s) = (UNTOLD, &self.store);
        // SAFETY: as above.
        unsafe { barleyrope_report_data_words(&self.core, &self.tables, s.as_ptr(), s.len(), i, &mut told) }
        told
    }

    pub fn report_response(&self, i: usize) -> Told {
        let (mut told, s) = (UNTOLD, &self.store);
        // SAFETY: as above.
        unsafe { barleyrope_report_response_words(&self.core, &self.tables, s.as_ptr(), s.len(), i, &mut told) }
        told
    }

    pub fn report_body(&self, i: usize, low: u64, high: u64) -> Told {
        let (mut told, s) = (UNTOLD, &self.store);
        // SAFETY: as above.
        unsafe { barleyrope_report_body_words(&self.core, &self.tables, s.as_ptr(), s.len(), i, low, high, &mut told) }
        told
    }

    pub fn report_presence(&self, i: usize, low: u64, high: u64) -> Told {
        let (mut told, s) = (UNTOLD, &self.store);
        // SAFETY: as above.
        unsafe { barleyrope_report_presence_words(&self.core, &self.tables, s.as_ptr(), s.len(), i, low, high, &mut told) }
        told
    }
}
