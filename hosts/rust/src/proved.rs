//! The proved functions of libserialpost.a, and what their answers mean. The crate's `unsafe` is all here.

use crate::serial::SerialSize;
use crate::FormError;

/// How a port and a clock lie in memory: include/serialpost.h says what stands where.
pub(crate) type Regs = [u8; 16];
/// The register that remembers FCR.
pub(crate) const FCR: usize = 9;
type Pos = [u32; 4];
type Ring = [u8; 1024];
pub(crate) type Words = [u32; 8];
/// Data reads, bytes sent, bytes lost, reads that left none; and of a clock invalid reads and invalid writes.
pub(crate) type SerialCounters = [u64; 4];
pub(crate) type ClockCounters = [u64; 2];

// SAFETY: the declarations say what the Rattle sources say (`hosts/agree` compares them), and by its proof each
// function is total: whatever the arguments, it touches only what it is lent, returns, and needs nothing before
// it. A reference is never null and always of the right length, and the borrow checker keeps those of one call
// apart. So a call is `safe` where all arguments are numbers and references.
unsafe extern "C" {
    #[cfg(test)]
    safe fn serialpost5_version() -> u32;

    safe fn serialpost5_serial_init(regs: &mut Regs, pos: &mut Pos, size: u32) -> u32;
    safe fn serialpost5_serial_read(regs: &mut Regs, pos: &mut Pos, ring: &Ring, offset: u8)
        -> u32;
    safe fn serialpost5_serial_write(
        regs: &mut Regs,
        pos: &mut Pos,
        ring: &mut Ring,
        offset: u8,
        value: u8,
    ) -> u32;
    fn serialpost5_serial_input(
        regs: &mut Regs,
        pos: &mut Pos,
        ring: &mut Ring,
        input: *const u8,
        length: usize,
    ) -> u32;
    safe fn serialpost5_serial_size(regs: &Regs) -> u32;
    safe fn serialpost5_serial_room(regs: &Regs, pos: &Pos) -> u32;
    safe fn serialpost5_serial_line(regs: &Regs, pos: &Pos) -> bool;
    safe fn serialpost5_serial_save(
        regs: &Regs,
        pos: &Pos,
        ring: &Ring,
        saved: &mut Regs,
        waiting: &mut Ring,
    ) -> u32;
    fn serialpost5_serial_restore(
        regs: &mut Regs,
        pos: &mut Pos,
        ring: &mut Ring,
        saved: &Regs,
        waiting: *const u8,
        length: usize,
    ) -> u32;
    fn serialpost5_serial_encode(
        saved: &Regs,
        waiting: *const u8,
        waiting_length: usize,
        form: *mut u8,
        form_length: usize,
    ) -> u32;
    fn serialpost5_serial_decode(
        form: *const u8,
        length: usize,
        saved: &mut Regs,
        waiting: &mut Ring,
    ) -> u32;

    safe fn serialpost5_clock_init(clock: &mut Words);
    safe fn serialpost5_clock_read(
        clock: &Words,
        offset: u16,
        time: u64,
        bytes: &mut [u8; 4],
    ) -> u32;
    safe fn serialpost5_clock_write(
        clock: &mut Words,
        offset: u16,
        time: u64,
        bytes: &[u8; 4],
    ) -> u32;
    safe fn serialpost5_clock_save(clock: &Words, saved: &mut Words);
    safe fn serialpost5_clock_restore(clock: &mut Words, saved: &Words) -> u32;
    fn serialpost5_clock_encode(saved: &Words, form: *mut u8, length: usize) -> u32;
    fn serialpost5_clock_decode(form: *const u8, length: usize, saved: &mut Words) -> u32;

    pub(crate) safe fn serialpost5_serial_counters_init(counters: &mut SerialCounters);
    pub(crate) safe fn serialpost5_serial_count(counters: &mut SerialCounters, answer: u32);
    pub(crate) safe fn serialpost5_serial_lost(counters: &mut SerialCounters);
    pub(crate) safe fn serialpost5_clock_counters_init(counters: &mut ClockCounters);
    pub(crate) safe fn serialpost5_clock_count_read(counters: &mut ClockCounters, answer: u32);
    pub(crate) safe fn serialpost5_clock_count_write(counters: &mut ClockCounters, answer: u32);

    pub(crate) safe fn serialpost5_i8042_read(offset: u8) -> u8;
    pub(crate) safe fn serialpost5_i8042_write(offset: u8, value: u8) -> bool;
}

/// The bits of the word that a call answers, as include/serialpost_raw.h has them: a number, what there is to say beside
/// it, and one raise: from there on stands how many there are.
const WORD_NUMBER: u32 = 0xffff;
pub(crate) const WORD_REFUSED: u32 = 0x1_0000;
pub(crate) const WORD_SENDS: u32 = 0x2_0000;
const WORD_REACHABLE: u32 = 0x4_0000;
pub(crate) const WORD_DATA_READ: u32 = 0x8_0000;
pub(crate) const WORD_NONE_LEFT: u32 = 0x20_0000;
const WORD_FLUSHED: u32 = 0x100_0000;
const WORD_RAISE: u32 = 0x1000_0000;

/// The word that a call answers, taken apart. There is one layout for all calls.
#[derive(Clone, Copy)]
pub(crate) struct Answer(u32);

impl Answer {
    /// How many bytes were taken, saved, or make up a form.
    #[inline]
    pub(crate) fn number(self) -> usize {
        (self.0 & WORD_NUMBER) as usize
    }

    #[inline]
    pub(crate) fn reply(self) -> u8 {
        self.0 as u8
    }

    #[inline]
    fn has(self, bit: u32) -> bool {
        self.0 & bit != 0
    }

    /// Of a size: no port is made with it. Of an input: the port is full. Of a restore: too many bytes. Of an access of
    /// the clock: no register can be read, or written, there. Of a form: there is none.
    #[inline]
    pub(crate) fn refused(self) -> bool {
        self.has(WORD_REFUSED)
    }

    #[inline]
    pub(crate) fn sent(self) -> Option<u8> {
        self.has(WORD_SENDS).then_some(self.0 as u8)
    }

    /// Whether a run from a fresh device could have come to what is restored.
    pub(crate) fn reachable(self) -> bool {
        self.has(WORD_REACHABLE)
    }

    /// Whether RBR was read.
    #[inline]
    pub(crate) fn data_read(self) -> bool {
        self.has(WORD_DATA_READ)
    }

    /// Whether RBR was read and no byte waits after it.
    #[inline]
    pub(crate) fn none_left(self) -> bool {
        self.has(WORD_NONE_LEFT)
    }

    /// How many waiting bytes FCR threw away, 0 of any other access.
    #[inline]
    pub(crate) fn discarded(self) -> usize {
        match self.has(WORD_FLUSHED) {
            true => self.number(),
            false => 0,
        }
    }

    /// How often to raise the interrupt.
    #[inline]
    pub(crate) fn raises(self) -> u32 {
        self.0 / WORD_RAISE
    }

    /// The number, or why there is no form.
    fn of_form(self) -> Result<usize, FormError> {
        if !self.refused() {
            return Ok(self.number());
        }
        Err(match self.number() {
            1 => FormError::TooShort,
            2 => FormError::TrailingBytes,
            3 => FormError::Version,
            4 => FormError::TooManyBytes,
            6 => FormError::Spare,
            other => unreachable!("{other} is no reason of the library"),
        })
    }
}

/// The memory of a serial port: its registers, where the waiting bytes lie, and the ring they lie in.
#[derive(Debug)]
pub(crate) struct Port {
    regs: Regs,
    pos: Pos,
    ring: Ring,
}

impl Port {
    /// Memory that is to become a port. What is spare in it is 0.
    const BLANK: Self = Port {
        regs: [0; 16],
        pos: [0; 4],
        ring: [0; 1024],
    };

    /// A fresh port in which so many bytes can wait, or none: a size is one of seven.
    pub(crate) fn of_size(size: u32) -> Option<Self> {
        let mut port = Self::BLANK;
        let answer = serialpost5_serial_init(&mut port.regs, &mut port.pos, size);
        (!Answer(answer).refused()).then_some(port)
    }

    pub(crate) fn fresh(size: SerialSize) -> Self {
        Self::of_size(size.0).expect("a port is made with each `SerialSize`")
    }

    /// A port that was written down, and what bringing it back answers. Where that is a refusal there is no such port.
    pub(crate) fn restored(regs: &Regs, waiting: &[u8]) -> (Self, Answer) {
        let mut port = Self::BLANK;
        // SAFETY: the pointer and the length are those of one slice, which is borrowed for the call.
        let answer = unsafe {
            serialpost5_serial_restore(
                &mut port.regs,
                &mut port.pos,
                &mut port.ring,
                regs,
                waiting.as_ptr(),
                waiting.len(),
            )
        };
        (port, Answer(answer))
    }

    /// The port to be written down: its registers, and the bytes that wait.
    pub(crate) fn saved(&self) -> (Regs, Vec<u8>) {
        let (mut regs, mut waiting) = ([0; 16], [0; 1024]);
        let answer =
            serialpost5_serial_save(&self.regs, &self.pos, &self.ring, &mut regs, &mut waiting);
        (regs, waiting[..Answer(answer).number()].to_vec())
    }

    #[inline]
    pub(crate) fn read(&mut self, offset: u8) -> Answer {
        Answer(serialpost5_serial_read(
            &mut self.regs,
            &mut self.pos,
            &self.ring,
            offset,
        ))
    }

    #[inline]
    pub(crate) fn write(&mut self, offset: u8, value: u8) -> Answer {
        Answer(serialpost5_serial_write(
            &mut self.regs,
            &mut self.pos,
            &mut self.ring,
            offset,
            value,
        ))
    }

    #[inline]
    pub(crate) fn input(&mut self, input: &[u8]) -> Answer {
        // SAFETY: the pointer and the length are those of one slice, which is borrowed for the call.
        Answer(unsafe {
            serialpost5_serial_input(
                &mut self.regs,
                &mut self.pos,
                &mut self.ring,
                input.as_ptr(),
                input.len(),
            )
        })
    }

    pub(crate) fn size(&self) -> usize {
        size(&self.regs)
    }

    #[inline]
    pub(crate) fn room(&self) -> usize {
        serialpost5_serial_room(&self.regs, &self.pos) as usize
    }

    #[inline]
    pub(crate) fn line(&self) -> bool {
        serialpost5_serial_line(&self.regs, &self.pos)
    }
}

/// The size that these registers tell.
pub(crate) fn size(regs: &Regs) -> usize {
    serialpost5_serial_size(regs) as usize
}

/// The memory of a clock: load, match, mask, raw status, the offset's low and high half, and two spare words.
#[derive(Debug)]
pub(crate) struct Clock(Words);

impl Clock {
    pub(crate) fn fresh() -> Self {
        let mut clock = Clock([0; 8]);
        serialpost5_clock_init(&mut clock.0);
        clock
    }

    /// A clock that was written down, and what bringing it back answers.
    pub(crate) fn restored(saved: &Words) -> (Self, Answer) {
        let mut clock = Clock([0; 8]);
        let answer = serialpost5_clock_restore(&mut clock.0, saved);
        (clock, Answer(answer))
    }

    /// The clock to be written down.
    pub(crate) fn saved(&self) -> Words {
        let mut saved = [0; 8];
        serialpost5_clock_save(&self.0, &mut saved);
        saved
    }

    #[inline]
    pub(crate) fn read(&self, offset: u16, time: u64, bytes: &mut [u8; 4]) -> Answer {
        Answer(serialpost5_clock_read(&self.0, offset, time, bytes))
    }

    #[inline]
    pub(crate) fn write(&mut self, offset: u16, time: u64, bytes: &[u8; 4]) -> Answer {
        Answer(serialpost5_clock_write(&mut self.0, offset, time, bytes))
    }
}

/// The longest form of a port, and that of a clock.
const SERIAL_FORM_MOST: usize = 1039;
const CLOCK_FORM_SIZE: usize = 26;

/// The form of a port that was written down.
pub(crate) fn port_to_bytes(regs: &Regs, waiting: &[u8]) -> Result<Vec<u8>, FormError> {
    let mut form = [0; SERIAL_FORM_MOST];
    // SAFETY: each pointer and the length behind it are those of one slice, which is borrowed for the call, and the
    // two lie apart.
    let answer = unsafe {
        serialpost5_serial_encode(
            regs,
            waiting.as_ptr(),
            waiting.len(),
            form.as_mut_ptr(),
            form.len(),
        )
    };
    Ok(form[..Answer(answer).of_form()?].to_vec())
}

/// The port that a form is of: its registers, and the bytes that wait.
pub(crate) fn port_from_bytes(form: &[u8]) -> Result<(Regs, Vec<u8>), FormError> {
    let (mut regs, mut waiting) = ([0; 16], [0; 1024]);
    // SAFETY: the pointer and the length are those of one slice, which is borrowed for the call.
    let answer =
        unsafe { serialpost5_serial_decode(form.as_ptr(), form.len(), &mut regs, &mut waiting) };
    Ok((regs, waiting[..Answer(answer).of_form()?].to_vec()))
}

/// The form of a clock that was written down.
pub(crate) fn clock_to_bytes(saved: &Words) -> Result<Vec<u8>, FormError> {
    let mut form = [0; CLOCK_FORM_SIZE];
    // SAFETY: the pointer and the length are those of one slice, which is borrowed for the call.
    let answer = unsafe { serialpost5_clock_encode(saved, form.as_mut_ptr(), form.len()) };
    Ok(form[..Answer(answer).of_form()?].to_vec())
}

/// The clock that a form is of.
pub(crate) fn clock_from_bytes(form: &[u8]) -> Result<Words, FormError> {
    let mut saved = [0; 8];
    // SAFETY: the pointer and the length are those of one slice, which is borrowed for the call.
    let answer = unsafe { serialpost5_clock_decode(form.as_ptr(), form.len(), &mut saved) };
    Answer(answer).of_form().map(|_| saved)
}

#[cfg(test)]
mod tests {
    use super::*;

    /// The interface that this crate is written for.
    const VERSION: u32 = 5;
    /// The register that tells a port's size.
    const SIZE: usize = 15;

    #[test]
    fn the_library_has_the_interface_that_is_declared_here() {
        assert_eq!(serialpost5_version(), VERSION);
        let header = include_str!("../../../include/serialpost.h");
        assert!(header.contains(&format!("#define SERIALPOST_VERSION {VERSION}\n")));
    }

    #[test]
    fn each_bit_moves_its_counter() {
        for bit in (0..32).map(|n| 1 << n) {
            let one = |told| u64::from(bit == told);
            let (mut port, mut clock) = ([7; 4], [7; 2]);
            serialpost5_serial_counters_init(&mut port);
            serialpost5_clock_counters_init(&mut clock);
            serialpost5_serial_count(&mut port, bit);
            serialpost5_serial_lost(&mut port);
            let (reads, sent, empty) = (one(WORD_DATA_READ), one(WORD_SENDS), one(WORD_NONE_LEFT));
            assert_eq!(port, [reads, sent, 1, empty]);
            serialpost5_clock_count_read(&mut clock, bit);
            assert_eq!(clock, [one(WORD_REFUSED), 0]);
            serialpost5_clock_count_write(&mut clock, bit);
            assert_eq!(clock, [one(WORD_REFUSED); 2]);
        }
    }

    /// Ports are made with seven sizes; memory may tell of others.
    #[test]
    fn each_register_tells_a_size() {
        let mut made = vec![];
        for register in 0..=u8::MAX {
            let (mut regs, waiting) = Port::fresh(SerialSize::USUAL).saved();
            regs[SIZE] = register;
            let (port, answer) = Port::restored(&regs, &waiting);
            let expected = (63 + 4 * usize::from(register)) % 1024 + 1;
            assert_eq!((port.size(), port.room()), (expected, expected));
            assert_eq!(answer.reachable(), Port::of_size(expected as u32).is_some());
            if answer.reachable() {
                made.push((expected, register));
            }
        }
        made.sort();
        let registers = [244, 248, 0, 16, 48, 112, 240];
        let sizes = [16, 32, 64, 128, 256, 512, 1024];
        assert_eq!(made, sizes.into_iter().zip(registers).collect::<Vec<_>>());
    }

    /// In each there is a form of a port, whatever size it tells.
    #[test]
    fn a_port_of_any_size_has_a_form() {
        for register in 0..=u8::MAX {
            let (mut regs, _) = Port::fresh(SerialSize::USUAL).saved();
            (regs[SIZE], regs[FCR]) = (register, !register);
            let most = vec![7; size(&regs)];
            let form = port_to_bytes(&regs, &most).unwrap();
            assert_eq!(form.len(), 15 + most.len());
            assert_eq!(port_from_bytes(&form), Ok((regs, most.clone())));
            let more = [&most[..], &[7]].concat();
            assert_eq!(port_to_bytes(&regs, &more), Err(FormError::TooManyBytes));
        }
    }

    #[test]
    fn fcr_is_reached_where_the_guest_can_have_written_it() {
        for fcr in 0..=u8::MAX {
            let (mut regs, waiting) = Port::fresh(SerialSize::USUAL).saved();
            regs[FCR] = fcr;
            let (port, answer) = Port::restored(&regs, &waiting);
            assert_eq!(port.saved(), (regs, waiting));
            assert_eq!(answer.reachable(), fcr & 0xc9 == fcr);
        }
    }

    #[test]
    fn a_spare_register_or_word_has_no_form() {
        for spare in FCR + 1..SIZE {
            let (mut regs, waiting) = Port::fresh(SerialSize::USUAL).saved();
            regs[spare] = 1;
            assert_eq!(port_to_bytes(&regs, &waiting), Err(FormError::Spare));
            assert!(!Port::restored(&regs, &waiting).1.reachable());
        }
        let mut words = Clock::fresh().saved();
        words[7] = 1;
        assert_eq!(clock_to_bytes(&words), Err(FormError::Spare));
        assert!(!Clock::restored(&words).1.reachable());
    }
}
