// Bytes and states in the words of docs/REPLAY.md.

const REGISTER_ORDER = [0, 8, 1, 2, 3, 5, 4, 6, 7]; // DL DH IER IIR LCR LSR MCR MSR SCR

export const hex = (number, digits) => number.toString(16).padStart(digits, "0");
export const hexOf = (bytes) => Buffer.from(bytes).toString("hex");
export const bytesOf = (digits) => Buffer.from(digits, "hex");

export function portText({ regs, waiting }) {
    const words = REGISTER_ORDER.map((place) => hex(regs[place], 2));
    return [...words, waiting.length, hexOf(waiting) || "-"].join(" ");
}

/** A saved port from its nine registers in the format's order and its waiting bytes, in hex or `-`. */
export function portOf(registers, waiting) {
    const regs = new Uint8Array(16);
    registers.forEach((word, i) => (regs[REGISTER_ORDER[i]] = parseInt(word, 16)));
    return { regs, waiting: bytesOf(waiting === "-" ? "" : waiting) };
}

export function clockText({ load, offset, match, mask, raw }) {
    return [hex(load, 8), hex(offset, 16), hex(match, 8), hex(mask, 8), hex(raw, 8)].join(" ");
}

/** A saved clock from its words in the format's order. */
export function clockOf(load, offset, match, mask, raw) {
    const word = (digits) => parseInt(digits, 16);
    const registers = { load: word(load), match: word(match), mask: word(mask), raw: word(raw) };
    return { ...registers, offset: BigInt(`0x${offset}`), spare: 0n };
}
