#!/usr/bin/env node
// Reads and writes LAZ in Node, with the coder of `las` as a WebAssembly module.
import * as fs from 'node:fs/promises';
import { constants } from 'node:fs';
import { OutOfMemory, ReadFault, Refused, open } from './laz.mjs';
import { Exists, NotRegular, writeAt, writeWhole } from './outputs.mjs';
import { Summary, reportText } from './report.mjs';

const USAGE = `Usage: node las.mjs info FILE
       node las.mjs unpack FILE -o OUTPUT [--force] [--workers N]
       node las.mjs pack FILE -o OUTPUT [--force] [--workers N] [--chunk-size N]

info prints the report of las lasinfo. unpack writes the plain file of a packed one, and pack the packed file of a plain
one, byte for byte those of las laszip. An output is written under another name in its folder, and gets its name when it
is whole and on the disk. One that exists is replaced only with --force.

  --workers N     chunks are unpacked or packed by 1 to 64 workers side by side
  --chunk-size N  the points of a chunk: 1 to 250000 (50000)

A run ends with 0, or with the status and the line on standard error that las has: 1 no memory, 2 usage, 3 read fault,
4 write fault, 5 refused. 70 is a fault of the engine or of this program.
`;

class Usage extends Error {}
class WriteFault extends Error {}

// A number of an option, within its range.
function numberOf(word, least, most) {
    const number = Number(word);
    if (!/^[0-9]{1,9}$/.test(word ?? '') || number < least || number > most)
        throw new Usage(`${word ?? 'nothing'} is not ${least} to ${most}`);
    return number;
}

function wordsOf(words) {
    const [command, ...rest] = words, taken = { command, force: false, workers: 0 };
    while (rest.length > 0) {
        const word = rest.shift();
        if (word === '-o' && taken.output === undefined)
            taken.output = rest.shift();
        else if (word === '--force')
            taken.force = true;
        else if (word === '--workers')
            taken.workers = numberOf(rest.shift(), 1, 64);
        else if (word === '--chunk-size' && command === 'pack')
            taken.chunkSize = numberOf(rest.shift(), 1, 250000);
        else if (!word.startsWith('-') && taken.input === undefined)
            taken.input = word;
        else
            throw new Usage(`the word ${word} is not taken here`);
    }
    if (!['info', 'unpack', 'pack'].includes(command))
        throw new Usage('the command is info, unpack or pack');
    if (!taken.input || (command === 'info') !== (taken.output === undefined) || taken.output === '')
        throw new Usage(command === 'info' ? 'info takes one file' : `${command} takes a file and -o OUTPUT`);
    return taken;
}

const sameFile = (one, other) => one.dev === other.dev && one.ino === other.ino;
const unchanged = (one, other) => sameFile(one, other) && one.size === other.size && one.mtimeNs === other.mtimeNs
    && one.ctimeNs === other.ctimeNs;

/** A regular file by its name, with `size` and `slice` as a Blob. */
class Input {
    static async open(name) {
        const input = new Input();
        input.name = name;
        try {
            // looked at first, since to open a FIFO waits
            if (!(await fs.stat(name)).isFile())
                throw new ReadFault(`${name} is no regular file`);
            input.file = await fs.open(name, constants.O_RDONLY | (constants.O_NONBLOCK ?? 0));
            input.status = await input.file.stat({ bigint: true });
        } catch (fault) {
            throw fault instanceof ReadFault ? fault : new ReadFault(fault.message, fault);
        }
        input.size = Number(input.status.size);
        return input;
    }

    slice(from, to) { return { arrayBuffer: () => this.#read(from, to) }; }

    async #read(from, to) {
        const bytes = new Uint8Array(to - from);
        let done = 0;
        while (done < bytes.length) {
            const most = Math.min(bytes.length - done, 2 ** 30);
            const { bytesRead } = await this.file.read(bytes, done, most, from + done);
            if (bytesRead === 0)
                break;
            done += bytesRead;
        }
        return bytes.buffer.slice(0, done);
    }

    /** Fails if the file of this name is another one now, or was changed since it was opened. */
    async sameStill() {
        const now = await fs.stat(this.name, { bigint: true }).catch(() => undefined);
        if (now === undefined || !unchanged(this.status, now))
            throw new ReadFault(`${this.name} was changed meanwhile`);
    }
}

async function info(file) {
    const summary = new Summary();
    for await (const chunk of file.chunks({ fields: ['X', 'Y', 'Z', 'returnNumber', 'classification'] }))
        summary.add(chunk);
    await new Promise((done, failed) => {
        process.stdout.on('error', failed);
        process.stdout.write(reportText(file, summary), (fault) => (fault ? failed(fault) : done()));
    }).catch((fault) => { throw new WriteFault(fault.message); });
}

// Writes the parts of a file; what fails in reading them is no fault of writing.
async function writeParts(out, parts) {
    let at = 0;
    for await (const part of parts) {
        const bytes = part.bytes ?? part;
        try {
            await writeAt(out, bytes, part.at ?? at);
        } catch (fault) {
            throw new WriteFault(fault.message);
        }
        at += bytes.length;
    }
}

const KNOWN = [Refused, ReadFault, OutOfMemory, WriteFault, Exists, Usage];

async function convert(file, input, { command, output, force, chunkSize }) {
    const there = await fs.stat(output, { bigint: true }).catch(() => undefined);
    if (there !== undefined && sameFile(there, input.status))
        throw new Usage('the output is the input');
    if (command === 'unpack' ? !file.isPacked : file.isPacked)
        throw new Usage(command === 'unpack' ? 'the file is plain' : 'the file is packed');
    try {
        await writeWhole(output, force, async (out) => {
            await writeParts(out, command === 'unpack' ? file.plainParts() : file.packedParts({ chunkSize }));
            await input.sameStill();
        });
    } catch (fault) {
        const isOfSystem = fault.code !== undefined && !KNOWN.some((kind) => fault instanceof kind);
        throw isOfSystem || fault instanceof NotRegular ? new WriteFault(fault.message) : fault;
    }
}

async function run(words) {
    const input = await Input.open(words.input);
    try {
        const file = await open(input, { workers: words.workers });
        try {
            await (words.command === 'info' ? info(file) : convert(file, input, words));
        } finally {
            await file.close();
        }
    } finally {
        await input.file.close();
    }
}

// The status and the line of a fault.
function told(fault, { input, output }) {
    if (fault instanceof Usage)
        return [2, `usage: ${fault.message}`];
    if (fault instanceof OutOfMemory)
        return [1, 'no memory'];
    if (fault instanceof ReadFault)
        return [3, `read fault: ${input}`];
    if (fault instanceof Exists)
        return [4, `write fault: ${output} exists; --force replaces it`];
    if (fault instanceof WriteFault)
        return [4, output === undefined ? 'write fault' : `write fault: ${output}`];
    if (fault instanceof Refused)
        return [5, `refused: ${input}: ${fault.message}`];
    return [70, `las.mjs: ${fault.stack}`];
}

let words = {};
try {
    if (['-h', '--help', 'help'].includes(process.argv[2]))
        process.stdout.write(USAGE);
    else {
        words = wordsOf(process.argv.slice(2));
        await run(words);
    }
} catch (fault) {
    const [status, line] = told(fault, words);
    process.stderr.write(`${line}\n`);
    process.exitCode = status;
}
