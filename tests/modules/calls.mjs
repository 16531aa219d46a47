// Makes the calls of a list on each module, in node, and writes them to MODULE.answers with their answers, in the form of a list without
// comments (calls.sh says what that is): calls.mjs LIST MODULE.. The answer of a call that traps, or that an exception leaves, is
// `trap`; a module that isn't accepted has the reason there.
import { readFileSync, writeFileSync } from 'node:fs';

const [list, ...modules] = process.argv.slice(2);
const calls = readFileSync(list, 'utf8').split('\n').filter((line) => line !== '' && !line.startsWith('#')).map((line) => line.split(' => ')[0]);

function value(word) {
    const [type, digits] = word.split(':');
    return type === 'i64' ? BigInt(digits) : Number(digits);
}

function answer(exports, call) {
    const [name, ...words] = call.split(' ');
    try {
        const result = exports[name](...words.map(value));
        return typeof result === 'bigint' ? `i64:${BigInt.asUintN(64, result)}` : `i32:${result >>> 0}`;
    } catch (error) {
        if (error instanceof WebAssembly.RuntimeError || error instanceof WebAssembly.Exception) return 'trap';
        return String(error);
    }
}

function answers(module) {
    try {
        const { exports } = new WebAssembly.Instance(new WebAssembly.Module(readFileSync(module)));
        return calls.map((call) => `${call} => ${answer(exports, call)}\n`).join('');
    } catch (error) {
        return `${error}\n`;
    }
}

for (const module of modules) writeFileSync(`${module}.answers`, answers(module));
