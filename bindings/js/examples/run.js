// node run.js rooms | door | pieces: runs an example and prints what it prints. (Before node 24: node --experimental-wasm-memory64 run.js ..)

import { load } from '../index.js';

const name = process.argv[2];
if (!['rooms', 'door', 'pieces'].includes(name)) {
  console.error('usage: node run.js rooms | door | pieces');
  process.exit(2);
}
const { default: example } = await import(`./${name}.js`);
example(await load(), console.log);
