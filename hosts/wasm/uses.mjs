#!/usr/bin/env node
// uses.mjs [MODULE.wasm]
//
// Tests a WebAssembly module, and serialpost.mjs with it: it has the functions of the header and each is called, a run
// played at once is the calls one after another, forms of states are read and written as recorded, ports have the size that
// they are made with, FCR empties them, and of an argument of 8 or 16 bits only these count. Exit status: 0 all holds, 1
// something does not, 2 there is no such module.
import { readFileSync } from "node:fs";
import { fail, loadNamed } from "./module.mjs";
import { Clock, ClockCounters, ResetController, SerialCounters, SerialPort } from "./serialpost.mjs";
import { decodeClock, decodePort, encodeClock, encodePort } from "./serialpost.mjs";
import { isDataRead, isDelivered, isDropped, isFlushed, isLooped, isNoneLeft, isRefused, numberOf } from "./serialpost.mjs";
import { bytesOf, clockText, hexOf, portText } from "./text.mjs";

const inRepository = (path) => readFileSync(new URL(`../../${path}`, import.meta.url), "latin1");

function expect(left, right, what) {
    if (left !== right)
        fail(`${what}: ${left}, and not ${right}`, 1);
}

// ---- Random numbers: of so many, and 32 bits of which the lower ones are given

let seed = 1;

function any(many) {
    seed = (Math.imul(seed, 1664525) + 1013904223) >>> 0;
    return Math.floor((seed / 2 ** 32) * many);
}

const anyBytes = (count) => Uint8Array.from({ length: count }, () => any(256));
const withAnyAbove = (bits, value) => (value | (any(2 ** (32 - bits)) << bits)) >>> 0;

// ---- The functions

/** The header's functions, each with the type of its result. */
function declared() {
    const found = inRepository("include/serialpost_raw.h").matchAll(/^(\w+) (serialpost\d+_\w+)\(/gm);
    return new Map(Array.from(found, ([, result, name]) => [name, result]));
}

/** Has each call counted in `called`, and its result held to its type: JavaScript sees all 32 bits of a narrow one. */
function watch(library, results, called) {
    const most = { bool: 1, uint8_t: 0xff };
    for (const [name, call] of Object.entries(library.calls))
        library.calls[name] = (...words) => {
            const answer = call(...words);
            called.add(name);
            const limit = most[results.get(name)];
            if (limit !== undefined && !(answer >= 0 && answer <= limit))
                fail(`${name} answers ${answer}, and ${limit} is the most`, 1);
            return answer;
        };
}

const sorted = (names) => [...names].sort().join(" ");

// ---- Runs

/** One operation of a run by the call that is for it, as the header says under serialpost_serial_play. */
function byItself(port, [kind, second, third], inputs) {
    switch (kind) {
        case 0: return port.read(second);
        case 1: return port.write(second, third);
        case 2: return port.input(inputs.splice(0, second + 256 * third));
        default: return port.room();
    }
}

function anyOperation() {
    const kind = any(4);
    return kind === 2 ? [kind, any(40), any(50) === 0 ? 1 : 0] : [kind, any(9), any(256)];
}

function runsAreCallsOneAfterAnother(library) {
    const played = new SerialPort(library), called = new SerialPort(library);
    for (let run = 0; run < 1000; run++) {
        const ops = Array.from({ length: any(40) }, anyOperation);
        const bytes = ops.reduce((sum, [kind, low, high]) => sum + (kind === 2 ? low + 256 * high : 0), 0);
        const inputs = [...anyBytes(bytes)];
        expect(played.play([...ops.flat(), 0], inputs), undefined, "a run that is cut short is played");
        const answers = played.play(ops.flat(), inputs);
        expect(String(answers), String(ops.map((op) => byItself(called, op, inputs))), "a run's answers");
        expect(portText(played.save()), portText(called.save()), "the port after a run");
    }
}

// ---- Forms of states

const FCR = 9, SIZE = 15; // the registers that remember FCR, and that tell the size

/** With FCR and the size behind it. */
const fullPortText = ({ regs, waiting }) =>
    `${portText({ regs, waiting })} ${hexOf(regs.slice(FCR, FCR + 1))} ${((63 + 4 * regs[SIZE]) % 1024) + 1}`;

/** The form of a port in the current version. Version 2 had neither FCR nor a size, which are then 0 and 64. */
const currentPort = (form) => (form[0] === 2 ? [3, ...form.slice(1, 11), 0, 0, ...form.slice(11)] : form);

const DEVICES = {
    serial: { decode: decodePort, encode: encodePort, text: fullPortText, current: currentPort },
    clock: { decode: decodeClock, encode: encodeClock, text: clockText, current: (form) => form },
};

/** What a line of the recorded forms says, once more; what was read must be written as the same bytes, or in the current version. */
function lineAgain(library, line) {
    const [device, digits] = line.split(" ");
    const { decode, encode, text, current } = DEVICES[device];
    const form = bytesOf(digits === "-" ? "" : digits);
    const { saved, reason } = decode(library, form);
    if (saved)
        expect(hexOf(encode(library, saved).form), hexOf(current(form)), "a form that was read, written again");
    return `${device} ${digits} => ${reason ?? `state ${text(saved)}`}`;
}

function formsAreAsRecorded(library) {
    const lines = inRepository("compare/recorded/forms.txt").split("\n").filter((line) => /^[^#]/.test(line));
    expect(lines.length > 0, true, "there are recorded forms");
    for (const line of lines)
        expect(lineAgain(library, line), line, "a recorded form");
}

function statesWithoutAFormAreRefused(library) {
    const port = { ...new SerialPort(library).save(), waiting: anyBytes(65) };
    expect(encodePort(library, port).reason, "too many", "65 bytes wait");
    for (let register = FCR + 1; register < SIZE; register++) {
        const spare = { ...new SerialPort(library).save(), regs: new Uint8Array(16).fill(1, register, register + 1) };
        expect(encodePort(library, spare).reason, "spare", `register ${register} is 1`);
    }
    expect(encodeClock(library, { ...new Clock(library).save(), spare: 1n }).reason, "spare", "a spare word is 1");
}

function clocksWithAnyOffsetAreKeptAsBytes(library) {
    for (const offset of [2n ** 32n, 2n ** 63n - 1n, 2n ** 63n, 2n ** 64n - 2n ** 32n - 1n]) {
        const saved = { ...new Clock(library).save(), offset }, clock = new Clock(library);
        const read = decodeClock(library, encodeClock(library, saved).form).saved;
        expect(clockText(read), clockText(saved), "a clock that was written and read");
        expect(clock.restore(read), false, "whether a run comes to the clock");
        for (const time of [0n, 1000n, 2n ** 32n - 1n])
            expect(hexOf(clock.read(0, time, [0, 0, 0, 0]).bytes), hexOf(new Uint32Array([Number(time)]).buffer), "the host's time");
    }
}

// ---- States

function devicesAreSavedAndRestored(library) {
    const port = new SerialPort(library), other = new SerialPort(library);
    port.write(1, 1);
    port.input(anyBytes(70));
    const answer = other.restore(port.save());
    expect(answer.raises, 1, "a restored port's interrupts");
    expect(answer.reachable, true, "whether a run comes to the port");
    expect(portText(other.save()), portText(port.save()), "a restored port");
    expect(other.restore({ ...port.save(), waiting: anyBytes(65) }), undefined, "65 bytes are brought back");

    const clock = new Clock(library), another = new Clock(library);
    clock.write(8, 1000n, [5, 0, 0, 0]);
    expect(another.restore(clock.save()), true, "whether a run comes to the clock");
    expect(hexOf(another.read(0, 1010n, [0, 0, 0, 0]).bytes), "0f000000", "a restored clock's time");
}

// ---- Sizes

function portsHaveTheSizeThatTheyAreMadeWith(library) {
    for (const size of [16, 32, 64, 128, 256, 512, 1024]) {
        const port = new SerialPort(library, size), bytes = anyBytes(size + 1), other = new SerialPort(library);
        expect(`${port.size()} ${port.room()}`, `${size} ${size}`, "a fresh port's size and room");
        expect(numberOf(port.input(bytes)), size, "how many bytes it takes");
        expect(isRefused(port.input(bytes.slice(size))), true, "one more is refused");
        const saved = port.save();
        expect(other.restore(saved).reachable, true, "whether a run comes to a port of this size");
        expect(`${other.size()} ${other.room()}`, `${size} 0`, "a restored port's size and room");
        expect(portText(other.save()), portText(saved), "a restored port");
        expect(other.restore({ ...saved, waiting: bytes }), undefined, "one byte more than the size is brought back");
        expect(hexOf(bytes.slice(0, size)), hexOf(Uint8Array.from(bytes.slice(0, size), () => numberOf(other.read(0)))), "its bytes");
    }
    expect(new SerialPort(library).size(), 64, "the usual size");
}

function portsOfEverySizeAreKeptAsBytes(library) {
    for (const size of [16, 32, 64, 128, 256, 512, 1024]) {
        const port = new SerialPort(library, size), other = new SerialPort(library);
        port.write(2, 0x8d);
        port.input(anyBytes(size));
        const saved = port.save(), { form } = encodePort(library, saved);
        expect(`${form.length} ${form[0]} ${form[11]}`, `${15 + size} 3 ${0x89}`, "a form's length, version and FCR");
        const read = decodePort(library, form).saved;
        expect(fullPortText(read), fullPortText(saved), "a port that was written and read");
        expect(other.restore(read).reachable, true, "whether a run comes to it");
        expect(`${other.size()} ${other.room()}`, `${size} 0`, "its size and room");
        const more = { ...saved, waiting: anyBytes(size + 1) };
        expect(encodePort(library, more).reason, "too many", "one byte more than the size is written");
    }
}

function otherNumbersAreNoSizes(library) {
    const port = new SerialPort(library, 256);
    port.input(anyBytes(100));
    const before = portText(port.save());
    for (const size of [0, 15, 17, 48, 2048, 2 ** 32 - 1, 2 ** 32 + 64, 64.5, -1, NaN]) {
        expect(port.init(size), false, `whether a port of ${size} is made`);
        expect(`${port.size()} ${portText(port.save())}`, `256 ${before}`, "the port after that");
    }
}

// ---- FCR

function fcrEmptiesThePort(library) {
    for (const size of [16, 1024]) {
        const port = new SerialPort(library, size);
        port.write(1, 1);
        port.input(anyBytes(size));
        expect(port.line(), true, "the line while bytes wait");
        for (const thrown of [size, 0]) {
            const answer = port.write(2, 0x07);
            expect(`${isFlushed(answer)} ${numberOf(answer)}`, `true ${thrown}`, "how many bytes were thrown away");
            expect(`${port.room()} ${port.line()} ${numberOf(port.read(5))}`, `${size} false ${0x60}`, "room, line and LSR");
        }
        expect(isFlushed(port.write(2, 0xc9)), false, "whether other bits empty it");
        expect(port.save().regs[FCR], 0xc9, "what is remembered of them");
    }
}

// ---- The level of the line

function theLineIsHighWhileAByteWaits(library) {
    const port = new SerialPort(library);
    port.input([0x61]);
    expect(port.line(), false, "the line while no interrupt is enabled");
    port.write(1, 1);
    expect(port.line(), true, "the line while a byte waits");
    port.read(0);
    expect(port.line(), false, "the line once it is read");
}

// ---- Counters

const valuesOf = (counters) => Object.values(counters.values).join(" ");

function whatHappensIsToldAndCounted(library) {
    const port = new SerialPort(library), counters = new SerialCounters(library);
    port.input([0x61]);
    const [byte, nothing] = [port.read(0), port.read(0)], sent = port.write(0, 0x78);
    expect([isDataRead, isDelivered, isNoneLeft].map((told) => told(byte)).join(), "true,true,true", "the last byte's read");
    expect([isDataRead, isDelivered, isNoneLeft].map((told) => told(nothing)).join(), "true,false,true", "a read of nothing");
    port.write(4, 0x10);
    port.input([0x61]);
    const looped = Array.from({ length: 65 }, () => port.write(0, 0x79));
    expect(looped.filter(isLooped).length, 64, "bytes that wait in the loop");
    expect(looped.filter(isDropped).length, 1, "bytes that are dropped in the loop");
    [byte, nothing, sent, port.read(5), ...looped].forEach((word) => counters.count(word));
    counters.lost();
    expect(valuesOf(counters), "2 1 1 2", "the port's counters");

    const clock = new Clock(library), invalid = new ClockCounters(library);
    for (const offset of [0x000, 0x01c, 0x020]) {
        invalid.countRead(clock.read(offset, 0n, [0, 0, 0, 0]).word);
        invalid.countWrite(clock.write(offset, 0n, [0, 0, 0, 0]).word);
    }
    expect(valuesOf(invalid), "2 2", "the clock's counters");
}

function countersStopAtTheHighestNumber(library) {
    const most = 2n ** 64n - 1n, all = 0xffff_ffff;
    const port = new SerialCounters(library), clock = new ClockCounters(library);
    port.values = { dataReads: most, sent: most - 1n, lost: most - 1n, noneLeft: most };
    clock.values = { invalidReads: most - 1n, invalidWrites: most };
    for (let time = 0; time < 2; time++) {
        port.count(all);
        port.lost();
        clock.countRead(all);
        clock.countWrite(all);
    }
    expect(valuesOf(port), `${most} ${most} ${most} ${most}`, "the port's counters");
    expect(valuesOf(clock), `${most} ${most}`, "the clock's counters");
    port.init();
    clock.init();
    expect(valuesOf(port), "0 0 0 0", "the port's fresh counters");
    expect(valuesOf(clock), "0 0", "the clock's fresh counters");
}

// ---- Narrow arguments

function upperBitsOfBytesDoNotCount(library) {
    const port = new SerialPort(library), same = new SerialPort(library), controller = new ResetController(library);
    const wide = (byte) => withAnyAbove(8, byte);
    for (let round = 0; round < 20000; round++) {
        const offset = any(4) ? any(9) : any(256), value = any(8) ? any(256) : 0xfe;
        expect(port.read(wide(offset)), same.read(offset), "a serial port's read");
        expect(port.write(wide(offset), wide(value)), same.write(offset, value), "a serial port's write");
        expect(controller.read(wide(offset)), 0, "a reset controller's read");
        const resets = offset === 4 && value === 0xfe;
        expect(controller.write(wide(offset), wide(value)), resets, "a reset controller's write");
    }
    expect(portText(port.save()), portText(same.save()), "the port after all of these");
}

function upperBitsOfClockOffsetsDoNotCount(library) {
    const clock = new Clock(library), same = new Clock(library);
    for (let round = 0; round < 20000; round++) {
        const offset = any(4) ? 4 * any(9) : any(2) ? 0xfe0 + any(32) : any(65536), wide = withAnyAbove(16, offset);
        const time = BigInt(any(2 ** 32)) << BigInt(any(33)), bytes = anyBytes(4);
        const read = clock.read(wide, time, bytes), sameRead = same.read(offset, time, bytes);
        expect(hexOf(read.bytes), hexOf(sameRead.bytes), "what a clock's read gives");
        expect(read.word, sameRead.word, "a clock's read");
        expect(clock.write(wide, time, bytes).word, same.write(offset, time, bytes).word, "a clock's write");
    }
    expect(clockText(clock.save()), clockText(same.save()), "the clock after all of these");
}

function theHeaderHasThisVersion(library) {
    const [, version] = /^#define SERIALPOST_VERSION (\d+)$/m.exec(inRepository("include/serialpost.h"));
    expect(library.calls.serialpost5_version(), Number(version), "the version");
}

function main(words) {
    const library = loadNamed(words), results = declared(), called = new Set();
    const exported = Object.keys(library.calls);
    watch(library, results, called);
    expect(sorted(exported), sorted(results.keys()), "the module's functions");
    theHeaderHasThisVersion(library);
    runsAreCallsOneAfterAnother(library);
    formsAreAsRecorded(library);
    statesWithoutAFormAreRefused(library);
    clocksWithAnyOffsetAreKeptAsBytes(library);
    devicesAreSavedAndRestored(library);
    portsHaveTheSizeThatTheyAreMadeWith(library);
    portsOfEverySizeAreKeptAsBytes(library);
    otherNumbersAreNoSizes(library);
    fcrEmptiesThePort(library);
    theLineIsHighWhileAByteWaits(library);
    whatHappensIsToldAndCounted(library);
    countersStopAtTheHighestNumber(library);
    upperBitsOfBytesDoNotCount(library);
    upperBitsOfClockOffsetsDoNotCount(library);
    expect(sorted(called), sorted(exported), "the functions that were called");
}

try {
    main(process.argv.slice(2));
} catch (error) {
    fail(error.message, 1);
}
