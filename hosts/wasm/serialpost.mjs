// The devices of serialpost.wasm for a JavaScript host. include/serialpost.h says what each call does. The module has the
// functions of include/serialpost_raw.h: what is shown there as a pointer is an address in the module's memory, and 64-bit
// numbers and lengths are BigInt.

const CALLS = [
    "version",
    "serial_init", "serial_read", "serial_write", "serial_input", "serial_size", "serial_room", "serial_line",
    "serial_play", "serial_save", "serial_restore", "serial_encode", "serial_decode",
    "clock_init", "clock_read", "clock_write", "clock_save", "clock_restore", "clock_encode", "clock_decode",
    "serial_counters_init", "serial_count", "serial_lost", "clock_counters_init", "clock_count_read", "clock_count_write",
    "i8042_read", "i8042_write",
].map((name) => `serialpost5_${name}`);

/** The interface that this file is written for. The functions' names carry it. */
const VERSION = 5;

const PAGE = 65536;
const REGS_SIZE = 16;
const POS_SIZE = 16;
const PLACES = 1024;
const USUAL_SIZE = 64;
const SERIAL_FORM_MOST = 1039;
const REASONS = [undefined, "too short", "trailing", "version", "too many", undefined, "spare"]; // 5 is not used again

// The bits of the word that a call answers, by their names in include/serialpost_raw.h: one layout for all calls.
const WORD_NUMBER = 0xffff;
const WORD_REFUSED = 0x1_0000;
const WORD_SENDS = 0x2_0000;
const WORD_REACHABLE = 0x4_0000;
const WORD_DATA_READ = 0x8_0000;
const WORD_DELIVERED = 0x10_0000;
const WORD_NONE_LEFT = 0x20_0000;
const WORD_LOOPED = 0x40_0000;
const WORD_DROPPED = 0x80_0000;
const WORD_FLUSHED = 0x100_0000;
const WORD_RAISE = 0x1000_0000;

// The word taken apart.
const has = (bit) => (answer) => (answer & bit) !== 0;
export const numberOf = (answer) => answer & WORD_NUMBER;
export const isRefused = has(WORD_REFUSED);
export const sends = has(WORD_SENDS);
const isReachable = has(WORD_REACHABLE);
export const isDataRead = has(WORD_DATA_READ);
export const isDelivered = has(WORD_DELIVERED);
export const isNoneLeft = has(WORD_NONE_LEFT);
export const isLooped = has(WORD_LOOPED);
export const isDropped = has(WORD_DROPPED);
export const isFlushed = has(WORD_FLUSHED); // and the number is how many bytes were thrown away
export const raisesOf = (answer) => Math.floor((answer >>> 0) / WORD_RAISE);

/** A loaded module: its functions, and memory to lend to them. */
export class Library {
    constructor(wasm) {
        const exported = new WebAssembly.Instance(new WebAssembly.Module(wasm)).exports;
        const { memory, __heap_base: heap } = exported;
        if (!(memory instanceof WebAssembly.Memory) || !(heap instanceof WebAssembly.Global))
            throw new Error("exports no memory, or does not say where it is free");
        const missing = CALLS.find((name) => typeof exported[name] !== "function");
        if (missing !== undefined)
            throw new Error(`exports no ${missing}`);
        const version = exported.serialpost5_version();
        if (version !== VERSION)
            throw new Error(`has version ${version}, and ${VERSION} is wanted`);
        this.calls = Object.fromEntries(Object.entries(exported).filter(([, value]) => typeof value === "function"));
        this.memory = memory;
        this.free = heap.value;
    }

    /** The address of `size` bytes that nobody else has, aligned for any type. */
    reserve(size) {
        const address = (this.free + 7) & ~7;
        this.free = address + size;
        const lacking = this.free - this.memory.buffer.byteLength;
        if (lacking > 0)
            this.memory.grow(Math.ceil(lacking / PAGE));
        return address;
    }

    /** Does `work`, and takes back what it reserved. */
    lending(work) {
        const before = this.free;
        try {
            return work();
        } finally {
            this.free = before;
        }
    }

    /** The address of a copy of these bytes. */
    copied(bytes) {
        const address = this.reserve(bytes.length);
        new Uint8Array(this.memory.buffer).set(bytes, address);
        return address;
    }

    /** A copy of the bytes that lie there. */
    bytes(address, length) {
        return new Uint8Array(this.memory.buffer).slice(address, address + length);
    }

    view(address, length) {
        return new DataView(this.memory.buffer, address, length);
    }
}

const lengthOf = (array) => BigInt(array.length);

/** Why a form is refused, or undefined where the answer is a number. */
const reasonOf = (answer) => (isRefused(answer) ? REASONS[numberOf(answer)] : undefined);

/** A 16550 in which `size` bytes of input can wait. A saved port is `{ regs, waiting }`, both bytes: of `regs` there are 16. */
export class SerialPort {
    constructor(library, size = USUAL_SIZE) {
        this.library = library;
        this.regs = library.reserve(REGS_SIZE);
        this.pos = library.reserve(POS_SIZE);
        this.ring = library.reserve(PLACES);
        if (!this.init(size))
            throw new RangeError(`no port is made with the size ${size}`);
    }

    get parts() {
        return [this.regs, this.pos, this.ring];
    }

    /** Whether a fresh port was made: not where `size` is no size of a port, and then nothing changes. */
    init(size = USUAL_SIZE) {
        const is32Bits = size >>> 0 === size; // the module would see the lowest bits of any other number
        return is32Bits && !isRefused(this.library.calls.serialpost5_serial_init(this.regs, this.pos, size));
    }

    /** How many bytes can wait. */
    size() {
        return this.library.calls.serialpost5_serial_size(this.regs) >>> 0;
    }

    /** The word that the call answers. So for the two below. */
    read(offset) {
        return this.library.calls.serialpost5_serial_read(...this.parts, offset) >>> 0;
    }

    write(offset, value) {
        return this.library.calls.serialpost5_serial_write(...this.parts, offset, value) >>> 0;
    }

    input(bytes) {
        const { calls } = this.library;
        return this.library.lending(
            () => calls.serialpost5_serial_input(...this.parts, this.library.copied(bytes), lengthOf(bytes)) >>> 0);
    }

    room() {
        return this.library.calls.serialpost5_serial_room(this.regs, this.pos) >>> 0;
    }

    /** Whether the interrupt line is high. */
    line() {
        return this.library.calls.serialpost5_serial_line(this.regs, this.pos) !== 0;
    }

    /** The answers to all operations of a run, or undefined where `ops` and `inputs` are no run. */
    play(ops, inputs) {
        const { library } = this, count = Math.floor(ops.length / 3);
        return library.lending(() => {
            const answers = library.reserve(4 * count);
            const played = library.calls.serialpost5_serial_play(...this.parts, library.copied(ops), lengthOf(ops),
                library.copied(inputs), lengthOf(inputs), answers, BigInt(count));
            const words = library.view(answers, 4 * count);
            return played ? Array.from({ length: count }, (_, i) => words.getUint32(4 * i, true)) : undefined;
        });
    }

    save() {
        const { library } = this;
        return library.lending(() => {
            const regs = library.reserve(REGS_SIZE), waiting = library.reserve(PLACES);
            const count = library.calls.serialpost5_serial_save(...this.parts, regs, waiting);
            return { regs: library.bytes(regs, REGS_SIZE), waiting: library.bytes(waiting, count) };
        });
    }

    /** How often to raise the interrupt, and whether a run comes to this state; undefined where it is refused. */
    restore({ regs, waiting }) {
        const { library } = this;
        const answer = library.lending(() => library.calls.serialpost5_serial_restore(
            ...this.parts, library.copied(regs), library.copied(waiting), lengthOf(waiting)) >>> 0);
        return isRefused(answer) ? undefined : { raises: raisesOf(answer), reachable: isReachable(answer) };
    }
}

/** `{ form }` of a saved port, or the `{ reason }` why it has none. */
export function encodePort(library, { regs, waiting }) {
    return library.lending(() => {
        const form = library.reserve(SERIAL_FORM_MOST);
        const answer = library.calls.serialpost5_serial_encode(
            library.copied(regs), library.copied(waiting), lengthOf(waiting), form, BigInt(SERIAL_FORM_MOST));
        const reason = reasonOf(answer);
        return reason ? { reason } : { form: library.bytes(form, answer) };
    });
}

/** `{ saved }`, or the `{ reason }` why these bytes are no form of a port. */
export function decodePort(library, form) {
    return library.lending(() => {
        const regs = library.reserve(REGS_SIZE), waiting = library.reserve(PLACES);
        const answer = library.calls.serialpost5_serial_decode(library.copied(form), lengthOf(form), regs, waiting);
        const reason = reasonOf(answer);
        if (reason)
            return { reason };
        return { saved: { regs: library.bytes(regs, REGS_SIZE), waiting: library.bytes(waiting, answer) } };
    });
}

const CLOCK_SIZE = 32;
const CLOCK_FORM_SIZE = 26;

/** The clock that lies there: numbers; the offset and the spare words are BigInts of 64 bits without sign. */
function clockAt(library, address) {
    const words = library.view(address, CLOCK_SIZE);
    const [load, match, mask, raw] = [0, 4, 8, 12].map((place) => words.getUint32(place, true));
    return { load, match, mask, raw, offset: words.getBigUint64(16, true), spare: words.getBigUint64(24, true) };
}

/** The address of a copy of this clock. */
function copiedClock(library, { load, match, mask, raw, offset, spare }) {
    const address = library.reserve(CLOCK_SIZE), words = library.view(address, CLOCK_SIZE);
    [load, match, mask, raw].forEach((word, i) => words.setUint32(4 * i, word, true));
    words.setBigUint64(16, offset, true);
    words.setBigUint64(24, spare, true);
    return address;
}

/** A PL031. A saved clock is `{ load, match, mask, raw, offset, spare }`. */
export class Clock {
    constructor(library) {
        this.library = library;
        this.address = library.reserve(CLOCK_SIZE);
        this.init();
    }

    init() {
        this.library.calls.serialpost5_clock_init(this.address);
    }

    /** What the four bytes hold after the read, whether a register can be read there, and the word that the call answers. */
    read(offset, time, bytes) {
        const { library } = this;
        return library.lending(() => {
            const there = library.copied(bytes);
            const word = library.calls.serialpost5_clock_read(this.address, offset, time, there) >>> 0;
            return { bytes: library.bytes(there, 4), valid: !isRefused(word), word };
        });
    }

    /** Whether a register can be written there, and the word. */
    write(offset, time, bytes) {
        const { library } = this;
        return library.lending(() => {
            const word = library.calls.serialpost5_clock_write(this.address, offset, time, library.copied(bytes)) >>> 0;
            return { valid: !isRefused(word), word };
        });
    }

    save() {
        const { library } = this;
        return library.lending(() => {
            const saved = library.reserve(CLOCK_SIZE);
            library.calls.serialpost5_clock_save(this.address, saved);
            return clockAt(library, saved);
        });
    }

    /** Whether a run comes to this state. */
    restore(saved) {
        const { library } = this;
        return library.lending(
            () => isReachable(library.calls.serialpost5_clock_restore(this.address, copiedClock(library, saved))));
    }
}

/** `{ form }` of a saved clock, or the `{ reason }` why it has none. */
export function encodeClock(library, saved) {
    return library.lending(() => {
        const form = library.reserve(CLOCK_FORM_SIZE);
        const answer = library.calls.serialpost5_clock_encode(
            copiedClock(library, saved), form, BigInt(CLOCK_FORM_SIZE));
        const reason = reasonOf(answer);
        return reason ? { reason } : { form: library.bytes(form, answer) };
    });
}

/** `{ saved }`, or the `{ reason }` why these bytes are no form of a clock. */
export function decodeClock(library, form) {
    return library.lending(() => {
        const saved = library.reserve(CLOCK_SIZE);
        const answer = library.calls.serialpost5_clock_decode(library.copied(form), lengthOf(form), saved);
        const reason = reasonOf(answer);
        return reason ? { reason } : { saved: clockAt(library, saved) };
    });
}

/** Numbers of 64 bits in the module's memory, which calls of a device's answers count up. */
class Counters {
    constructor(library, names) {
        this.library = library;
        this.names = names;
        this.address = library.reserve(8 * names.length);
        this.init();
    }

    /** A BigInt for each name. */
    get values() {
        const words = this.library.view(this.address, 8 * this.names.length);
        return Object.fromEntries(this.names.map((name, i) => [name, words.getBigUint64(8 * i, true)]));
    }

    set values(values) {
        const words = this.library.view(this.address, 8 * this.names.length);
        this.names.forEach((name, i) => words.setBigUint64(8 * i, values[name], true));
    }
}

export class SerialCounters extends Counters {
    constructor(library) {
        super(library, ["dataReads", "sent", "lost", "noneLeft"]);
    }

    init() {
        this.library.calls.serialpost5_serial_counters_init(this.address);
    }

    /** Counts what a word tells that the port answered. */
    count(word) {
        this.library.calls.serialpost5_serial_count(this.address, word);
    }

    /** A byte could not be sent. */
    lost() {
        this.library.calls.serialpost5_serial_lost(this.address);
    }
}

export class ClockCounters extends Counters {
    constructor(library) {
        super(library, ["invalidReads", "invalidWrites"]);
    }

    init() {
        this.library.calls.serialpost5_clock_counters_init(this.address);
    }

    countRead(word) {
        this.library.calls.serialpost5_clock_count_read(this.address, word);
    }

    countWrite(word) {
        this.library.calls.serialpost5_clock_count_write(this.address, word);
    }
}

/** The reset corner of an i8042. */
export class ResetController {
    constructor(library) {
        this.library = library;
    }

    read(offset) {
        return this.library.calls.serialpost5_i8042_read(offset) & 0xff;
    }

    /** Whether to reset the machine. */
    write(offset, value) {
        return this.library.calls.serialpost5_i8042_write(offset, value) !== 0;
    }
}
