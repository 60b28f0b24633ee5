'use strict';
// A headless Chromium (`apt-get install chromium`; CHROMIUM names another) that is spoken to over a pipe, by the DevTools protocol: messages of
// JSON that end with a NUL.
const fs = require('fs');
const os = require('os');
const path = require('path');
const { spawn } = require('child_process');

const MOST_MS = 600000;

class Browser {
    constructor() {
        this.folder = fs.mkdtempSync(path.join(os.tmpdir(), 'browser-'));
        const flags = ['--headless', '--no-sandbox', '--disable-gpu', '--remote-debugging-pipe', `--user-data-dir=${this.folder}`, '--no-first-run', '--window-size=1280,720'];
        this.process = spawn(process.env.CHROMIUM ?? 'chromium', flags, { stdio: ['ignore', 'ignore', 'ignore', 'pipe', 'pipe'] });
        this.waiting = new Map();
        this.heard = [];
        this.last = 0;
        let left = [];
        this.process.stdio[4].on('data', (data) => {
            for (let end; (end = data.indexOf(0)) >= 0; data = data.subarray(end + 1)) {
                this.hear(JSON.parse(Buffer.concat([...left, data.subarray(0, end)])));
                left = [];
            }
            left.push(data);
        });
    }

    hear(message) {
        const waits = this.waiting.get(message.id);
        if (!waits) return this.heard.push(message);
        this.waiting.delete(message.id);
        if (message.error) waits.reject(new Error(message.error.message));
        else waits.resolve(message.result);
    }

    send(method, params = {}, sessionId = undefined) {
        const id = ++this.last;
        this.process.stdio[3].write(`${JSON.stringify({ id, method, params, sessionId })}\0`);
        return new Promise((resolve, reject) => this.waiting.set(id, { resolve, reject }));
    }

    // The processor time of all its processes, in milliseconds.
    async spent() {
        const { processInfo } = await this.send('SystemInfo.getProcessInfo');
        return Math.round(1000 * processInfo.reduce((sum, { cpuTime }) => sum + cpuTime, 0));
    }

    // Opens a tab, which is of the class that is given.
    async open(Kind = Tab) {
        const { targetId } = await this.send('Target.createTarget', { url: 'about:blank' });
        const { sessionId } = await this.send('Target.attachToTarget', { targetId, flatten: true });
        return Object.assign(new Kind(), { browser: this, targetId, sessionId });
    }

    async close() {
        const ended = new Promise((resolve) => this.process.on('exit', resolve));
        this.send('Browser.close').catch(() => {});
        await ended;
        fs.rmSync(this.folder, { recursive: true, force: true, maxRetries: 10, retryDelay: 200 });
    }
}

class Tab {
    send(method, params) {
        return this.browser.send(method, params, this.sessionId);
    }

    async value(expression) {
        const { result, exceptionDetails } = await this.send('Runtime.evaluate', { expression, returnByValue: true, awaitPromise: true });
        if (exceptionDetails) throw new Error(exceptionDetails.exception?.description ?? exceptionDetails.text);
        return result.value;
    }

    // Waits for a condition, and answers the milliseconds since a time.
    async until(condition, begun = process.hrtime.bigint()) {
        const taken = () => Number((process.hrtime.bigint() - begun) / 1000000n);
        while (!await this.value(condition)) {
            if (taken() > MOST_MS) throw new Error(`this never comes: ${condition}`);
            await new Promise((resolve) => setTimeout(resolve, 10));
        }
        return taken();
    }

    async click(x, y) {
        for (const type of ['mousePressed', 'mouseReleased']) await this.send('Input.dispatchMouseEvent', { type, x, y, button: 'left', clickCount: 1 });
    }

    // Keeps a picture of what is seen.
    async picture(file) {
        const { data } = await this.send('Page.captureScreenshot', { format: 'png' });
        fs.writeFileSync(file, Buffer.from(data, 'base64'));
    }

    close() {
        return this.browser.send('Target.closeTarget', { targetId: this.targetId });
    }
}

module.exports = { Browser, Tab };
