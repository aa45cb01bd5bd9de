#!/usr/bin/env node
// replay.mjs [MODULE.wasm] < LIST > ANSWERS
//
// Answers a list of accesses (docs/REPLAY.md) with the devices of a WebAssembly module: the one that is named, or that
// of `hosts/library wasm32-unknown-unknown`. What cannot be used gets one line on standard error and the status 2.
import { createReadStream } from "node:fs";
import { fail, loadNamed } from "./module.mjs";
import { Clock, ClockCounters, ResetController, SerialCounters, SerialPort } from "./serialpost.mjs";
import { isFlushed, isRefused, numberOf, raisesOf, sends } from "./serialpost.mjs";
import { bytesOf, clockOf, clockText, hex, hexOf, portOf, portText } from "./text.mjs";

const LONGEST_LINE = 8192;
const NO_OPERATION = "?";

const number = (digits) => parseInt(digits, 16);
const countersText = (counters) => ["counters", ...Object.values(counters.values)].join(" ");
const reachableText = (reachable) => (reachable ? "reached" : "unreached");

/** What a write did: the byte sent, or how many bytes were thrown away. */
function writtenText(answer) {
    if (sends(answer))
        return hex(numberOf(answer), 2);
    return isFlushed(answer) ? `-${numberOf(answer)}` : "--";
}

// Each device: the line with which it begins, which `begin` may refuse, and its accesses: what a line looks like, and how
// it is answered.

class SerialLines {
    line = /^serial(?: ([1-9][0-9]*))?$/;

    constructor(library) {
        this.port = new SerialPort(library);
        this.counters = new SerialCounters(library);
    }

    begin(size = "64") {
        const made = this.port.init(Number(size));
        if (made)
            this.counters.init();
        return made;
    }

    accesses = [
        [/^w ([0-9a-f]{2}) ([0-9a-f]{2})$/, (offset, value) => {
            const answer = this.port.write(number(offset), number(value));
            this.counters.count(answer);
            return `w ${writtenText(answer)} ${raisesOf(answer)}`;
        }],
        [/^r ([0-9a-f]{2})$/, (offset) => {
            const answer = this.port.read(number(offset));
            this.counters.count(answer);
            return `r ${hex(numberOf(answer), 2)} ${raisesOf(answer)}`;
        }],
        [/^b(?: ((?:[0-9a-f]{2})+))?$/, (bytes = "") => {
            const answer = this.port.input(bytesOf(bytes));
            return `b ${isRefused(answer) ? "full" : numberOf(answer)} ${raisesOf(answer)}`;
        }],
        [/^counters$/, () => countersText(this.counters)],
        [/^lost$/, () => {
            this.counters.lost();
            return "lost";
        }],
        [/^room$/, () => `room ${this.port.room()}`],
        [/^line$/, () => `line ${this.port.line() ? 1 : 0}`],
        [/^state$/, () => `state ${portText(this.port.save())}`],
        [/^save$/, () => `save ${portText((this.kept = this.port.save()))}`],
        [/^restore$/, () => (this.kept ? this.restored(this.kept) : NO_OPERATION)],
        [/^restore ((?:[0-9a-f]{2} ){9})(-|(?:[0-9a-f]{2})+)$/, (registers, waiting) =>
            this.restored(portOf(registers.trim().split(" "), waiting))],
    ];

    restored(saved) {
        const answer = this.port.restore(saved);
        return answer ? `restore ${answer.raises} ${reachableText(answer.reachable)}` : "restore full";
    }
}

class ClockLines {
    line = /^clock$/;

    constructor(library) {
        this.clock = new Clock(library);
        this.counters = new ClockCounters(library);
    }

    begin() {
        this.clock.init();
        this.counters.init();
        this.time = 0n;
        return true;
    }

    accesses = [
        [/^now ([0-9]+)$/, (seconds) => {
            const time = BigInt(seconds);
            if (time >= 2n ** 64n)
                return NO_OPERATION;
            this.time = time;
            return "now";
        }],
        [/^r ([0-9a-f]{4}) ([0-9a-f]{8})$/, (offset, held) => {
            const { bytes, valid, word } = this.clock.read(number(offset), this.time, bytesOf(held));
            this.counters.countRead(word);
            return `r ${hexOf(bytes)} ${valid ? "ok" : "invalid"}`;
        }],
        [/^w ([0-9a-f]{4}) ([0-9a-f]{8})$/, (offset, bytes) => {
            const { valid, word } = this.clock.write(number(offset), this.time, bytesOf(bytes));
            this.counters.countWrite(word);
            return `w ${valid ? "ok" : "invalid"}`;
        }],
        [/^counters$/, () => countersText(this.counters)],
        [/^state$/, () => `state ${clockText(this.clock.save())}`],
        [/^save$/, () => `save ${clockText((this.kept = this.clock.save()))}`],
        [/^restore$/, () => (this.kept ? this.restored(this.kept) : NO_OPERATION)],
        [/^restore ([0-9a-f]{8}) ([0-9a-f]{16}) ([0-9a-f]{8}) ([0-9a-f]{8}) ([0-9a-f]{8})$/, (...words) =>
            this.restored(clockOf(...words))],
    ];

    restored(saved) {
        return `restore ${reachableText(this.clock.restore(saved))}`;
    }
}

class ResetLines {
    line = /^i8042$/;

    constructor(library) {
        this.controller = new ResetController(library);
    }

    begin() {
        return true;
    }

    accesses = [
        [/^w ([0-9a-f]{2}) ([0-9a-f]{2})$/, (offset, value) =>
            (this.controller.write(number(offset), number(value)) ? "w reset" : "w --")],
        [/^r ([0-9a-f]{2})$/, (offset) => `r ${hex(this.controller.read(number(offset)), 2)}`],
    ];
}

class Replay {
    constructor(library) {
        this.devices = [SerialLines, ClockLines, ResetLines].map((Lines) => new Lines(library));
    }

    /** The answer to a line; undefined where it gets none. */
    answer(line) {
        if (line === "" || line.startsWith("#"))
            return undefined;
        if (line.length > LONGEST_LINE)
            return NO_OPERATION;
        for (const device of this.devices) {
            const words = device.line.exec(line);
            if (!words)
                continue;
            if (!device.begin(...words.slice(1)))
                return NO_OPERATION;
            this.current = device;
            return line;
        }
        for (const [shape, answer] of this.current?.accesses ?? []) {
            const words = shape.exec(line);
            if (words)
                return answer(...words.slice(1));
        }
        return NO_OPERATION;
    }

    answers(lines) {
        const answers = lines.map((line) => this.answer(line)).filter((answer) => answer !== undefined);
        return answers.map((answer) => `${answer}\n`).join("");
    }
}

async function main(words) {
    const replay = new Replay(loadNamed(words));
    const list = createReadStream(null, { fd: 0, encoding: "latin1" }); // a character for each byte
    list.on("error", (error) => fail(`cannot read the list: ${error.message}`));
    process.stdout.on("error", (error) => fail(`cannot write the answers: ${error.message}`));
    let rest = "";
    for await (const chunk of list) {
        const lines = (rest + chunk).split("\n");
        rest = lines.pop().slice(0, LONGEST_LINE + 1); // the rest of a line that is too long makes no difference
        process.stdout.write(replay.answers(lines));
    }
    process.stdout.write(replay.answers([rest]));
}

main(process.argv.slice(2)).catch((error) => fail(error.message));
