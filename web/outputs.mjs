// A file of Node's that takes its name when it is whole and on the disk.
import { randomBytes } from 'node:crypto';
import * as fs from 'node:fs/promises';
import { unlinkSync } from 'node:fs';
import { basename, dirname, join } from 'node:path';

const SIGNALS = ['SIGINT', 'SIGTERM', 'SIGHUP'];

/** There is a file of this name already. */
export class Exists extends Error {}

/** What is there is no regular file. */
export class NotRegular extends Error {}

async function statusOf(name, call = fs.lstat) {
    try {
        return await call(name);
    } catch (fault) {
        if (fault.code === 'ENOENT')
            return undefined;
        throw fault;
    }
}

// The name that is written, through symbolic links, and what is there.
async function target(name, force) {
    if (await statusOf(name) === undefined)
        return { path: name, older: undefined };
    if (!force)
        throw new Exists(name);
    const path = await fs.realpath(name), older = await fs.stat(path);
    if (!older.isFile())
        throw new NotRegular(name);
    return { path, older };
}

function draftName(path) {
    const end = `.${randomBytes(8).toString('hex')}.part`;
    let name = basename(path);
    while (Buffer.byteLength(name) > 254 - end.length)
        name = name.slice(0, -1);
    return join(dirname(path), `.${name}${end}`);
}

async function keepOwnerAndMode(file, older) {
    if (older === undefined)
        return;
    const made = await file.stat();
    if (made.uid !== older.uid || made.gid !== older.gid)
        await file.chown(older.uid, older.gid).catch(() => {});
    await file.chmod(older.mode & 0o7777);
}

// Gives the draft its name. A file that came there meanwhile is written over only if `force` is set.
async function move(draft, path, force) {
    if (force)
        return fs.rename(draft, path);
    try {
        await fs.link(draft, path);
    } catch (fault) {
        if (fault.code === 'EEXIST')
            throw new Exists(path);
        // (a file system without hard links)
        if (await statusOf(path) !== undefined)
            throw new Exists(path);
        return fs.rename(draft, path);
    }
    return fs.unlink(draft);
}

async function syncFolder(folder) {
    if (process.platform === 'win32')
        return; // which can't open one
    const opened = await fs.open(folder, 'r');
    try {
        await opened.sync();
    } finally {
        await opened.close();
    }
}

/**
 * Writes a file by `write`, which is given an open file. It is written under a hidden name in the same folder, synced
 * and moved, and the folder is synced. If that fails, or a signal comes, the hidden file is removed.
 */
export async function writeWhole(name, force, write) {
    const { path, older } = await target(name, force);
    const draft = draftName(path), file = await fs.open(draft, 'wx');
    const interrupted = (signal) => {
        unlinkSync(draft);
        process.exit(128 + { SIGINT: 2, SIGTERM: 15, SIGHUP: 1 }[signal]);
    };
    for (const signal of SIGNALS)
        process.on(signal, interrupted);
    try {
        try {
            await write(file);
            await keepOwnerAndMode(file, older);
            await file.sync();
        } finally {
            await file.close();
        }
        await move(draft, path, force);
    } catch (fault) {
        await fs.unlink(draft).catch(() => {});
        throw fault;
    } finally {
        for (const signal of SIGNALS)
            process.off(signal, interrupted);
    }
    await syncFolder(dirname(path));
}

/** Writes all of these bytes at a place of an open file. */
export async function writeAt(file, bytes, at) {
    for (let done = 0; done < bytes.length;) {
        const { bytesWritten } = await file.write(bytes, done, bytes.length - done, at + done);
        done += bytesWritten;
    }
}
