// Loads the addon once for each addon of the script, and lets the loop run. With `about` it tells what the runtime is.
// RUNTIME driver.js about, or RUNTIME driver.js ADDON COUNT [worker]
const [file, count, where] = process.argv.slice(2);
function collector() {
  if (globalThis.gc) return;
  try {
    require('v8').setFlagsFromString('--expose-gc');
    globalThis.gc = require('vm').runInNewContext('gc');
  } catch {
    // Then no collection can be asked for, which is said of each `collect`.
  }
}
function start() {
  collector();
  // A promise that is rejected has no handler here, and without this line the process would end with an error.
  process.on('unhandledRejection', () => {});
  process.on('uncaughtException', (e) => console.log('env note uncaught ' + String(e).split('\n')[0]));
  let last;
  for (let i = 0; i < Math.max(1, +count); i++) {
    const addon = { exports: {} };
    process.dlopen(addon, file);
    last = addon.exports;
  }
  last.go();
}
if (file === 'about') {
  const release = process.release || {};
  console.log(JSON.stringify({ name: release.name || 'runtime', version: process.version, napi: +process.versions.napi, path: process.execPath }));
} else {
  // `process.exit` on the main thread runs no hook and no finalizer, and in a Worker it does.
  const threads = require('worker_threads');
  if (where === 'worker' && threads.isMainThread) new threads.Worker(__filename, { argv: process.argv.slice(2) });
  else start();
}
