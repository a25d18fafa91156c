// Makes the calls of the page beside it, one after another. The first message brings the module.
'use strict';

importScripts('memcgrun.js');

let machine;

addEventListener('message', ({ data: { module, call, text, options } }) => {
  if (module) {
    machine = new Memcgrun(module);
    return;
  }
  try {
    postMessage({ answer: machine[call](text, options) });
  } catch (fault) {
    postMessage({ fault: fault.message });
  }
});
