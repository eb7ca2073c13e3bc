// run-wasm.mjs node|chromium MODULE VECTORS [CASES]: replay.mjs over gussetraft.wasm, in node or in Chromium without a window. try runs it.

import { execFile } from 'node:child_process';
import { mkdtemp, readFile, rm } from 'node:fs/promises';
import { createServer } from 'node:http';
import { tmpdir } from 'node:os';
import { join } from 'node:path';
import { fileURLToPath } from 'node:url';

const [, , engine, module, vectors, cases] = process.argv;
const root = fileURLToPath(new URL('..', import.meta.url));
const MINUTES = 3;

// What the page and node read, by name.
const place = (name) => {
  if (name === 'module') return module;
  if (name.endsWith('.stdout')) return join(root, 'examples/c', name);
  if (['stdin', 'stdout'].includes(name)) return join(vectors, name);
  return join(cases, name);
};

const PAGE = `<!doctype html><title>gussetraft</title><script type="module">
import * as gussetraft from './bindings/js/index.js';
import rooms, { rows } from './bindings/js/examples/rooms.js';
import door from './bindings/js/examples/door.js';
import pieces from './bindings/js/examples/pieces.js';
import { all } from './platforms/replay.mjs';
const fetched = async (name) => {
  const response = await fetch('data/' + name);
  if (!response.ok) throw new Error(name + ' can not be fetched');
  return new Uint8Array(await response.arrayBuffer());
};
const tell = (told) => fetch('told', { method: 'POST', body: JSON.stringify(told) });
all(fetched, ${cases !== undefined}, gussetraft, { rooms, door, pieces }, rows).then((line) => tell({ line }), (error) => tell({ error: String(error?.stack ?? error) }));
</script>`;

async function inNode() {
  const gussetraft = await import('../bindings/js/index.js');
  const { default: rooms, rows } = await import('../bindings/js/examples/rooms.js');
  const { default: door } = await import('../bindings/js/examples/door.js');
  const { default: pieces } = await import('../bindings/js/examples/pieces.js');
  const { all } = await import('./replay.mjs');
  const fetched = async (name) => new Uint8Array(await readFile(place(name)));
  return `node ${process.versions.node}: ${await all(fetched, cases !== undefined, gussetraft, { rooms, door, pieces }, rows)}`;
}

// The page posts what it found, so that its end is known.
async function inChromium() {
  const profile = await mkdtemp(join(tmpdir(), 'gussetraft-'));
  let server;
  let browser;
  try {
    const told = await new Promise((resolve, reject) => {
      server = createServer(async (request, response) => {
        const path = request.url.slice(1);
        try {
          if (path === 'told') {
            const parts = [];
            for await (const part of request) parts.push(part);
            response.end();
            resolve({ ...JSON.parse(Buffer.concat(parts).toString()), agent: request.headers['user-agent'] });
          } else if (path === '') {
            response.setHeader('content-type', 'text/html; charset=utf-8').end(PAGE);
          } else if (path.startsWith('data/')) {
            response.end(await readFile(place(path.slice(5))));
          } else if (/^(bindings\/js|platforms)\/[a-z/]+\.m?js$/.test(path)) {
            response.setHeader('content-type', 'text/javascript').end(await readFile(join(root, path)));
          } else {
            response.writeHead(404).end();
          }
        } catch (error) {
          response.writeHead(500).end(String(error));
        }
      }).listen(0, '127.0.0.1', () => {
        const words = ['--headless', '--no-sandbox', '--disable-gpu', '--disable-dev-shm-usage', `--user-data-dir=${profile}`];
        // Chromium runs as root only without its sandbox; the page is ours.
        browser = execFile('chromium', [...words, `http://127.0.0.1:${server.address().port}/`], (error, _, said) =>
          reject(new Error(`chromium ended before the page had told anything: ${error?.message ?? ''} ${said.slice(-800)}`)),
        );
      });
      setTimeout(() => reject(new Error(`the page told nothing in ${MINUTES} minutes`)), MINUTES * 60_000).unref();
    });
    if (told.error) throw new Error(told.error);
    return `${/(Headless)?Chrome\/[0-9.]+/.exec(told.agent)?.[0] ?? told.agent}: ${told.line}`;
  } finally {
    if (browser?.exitCode === null) {
      browser.kill();
      await new Promise((done) => browser.once('exit', done));
    }
    server?.closeAllConnections();
    server?.close();
    await rm(profile, { recursive: true, force: true, maxRetries: 5 });
  }
}

try {
  console.log(`try: wasm64-unknown-unknown: ${engine === 'chromium' ? await inChromium() : await inNode()}`);
  process.exit(0);
} catch (error) {
  console.error(`try: ${error.message}`);
  process.exit(1);
}
