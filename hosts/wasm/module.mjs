// For the programs here: the module that the command line names, and the end of a program that cannot go on.
import { readFileSync } from "node:fs";
import { basename } from "node:path";
import { fileURLToPath } from "node:url";
import { Library } from "./serialpost.mjs";

const BUILT = fileURLToPath(new URL("../../target/lib/wasm32-unknown-unknown/serialpost.wasm", import.meta.url));
const program = basename(process.argv[1]);

export function fail(why, status = 2) {
    console.error(`${program}: ${why}`);
    process.exit(status);
}

export function loadNamed([path = BUILT, ...others]) {
    if (others.length > 0)
        fail(`usage: ${program} [MODULE.wasm]`);
    try {
        return new Library(readFileSync(path));
    } catch (error) {
        return fail(`${path}: ${error.message}`);
    }
}
