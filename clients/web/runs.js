// Where the programs run: in the page while the lines are few, else in a worker, so that the page does not stand still. A worker says how far it is, and it
// can be stopped: it is ended then, and the next run starts another.

import { decoded, programsOf } from './programs.js';
import { SIZES, runWithHints, outputOf } from './session.js';

const LINES_IN_PAGE = 1000;
const PROGRESS_EVERY = 100; // ms

// What can be asked, each of lines on a fresh card.
const JOBS = { whole: runWithHints, output: outputOf };

export class Stopped extends Error {}

// The answer, or a promise of it where it comes from the worker.
export function makeRuns(modules, workerSource) {
  const programs = Object.fromEntries(SIZES.map((cells) => [cells, programsOf(modules, cells)]));
  const lines = worker(modules, workerSource);
  const questions = worker(modules, workerSource);
  return {
    programs,
    ask: (cells, job, given, ...rest) => (given.length <= LINES_IN_PAGE ? JOBS[job](programs[cells], given, ...rest) : lines.ask({ cells, job, args: [given, ...rest] })),
    onProgress: (told) => { lines.told = told; },
    stop: lines.stop,
    // One program on one input, always in a worker of its own; `onText` is told what it has written so far.
    stream(cells, name, input, onText) {
      questions.stop();
      questions.told = onText;
      return questions.ask({ cells, job: 'stream', args: [name, input] });
    },
    stopStream: questions.stop,
  };
}

// A worker that is started when it is first asked.
function worker(modules, source) {
  let running = null;
  let lastId = 0;
  const waiting = new Map();
  const settle = (how, value) => {
    const all = [...waiting.values()];
    waiting.clear();
    all.forEach((w) => w[how](value));
  };
  const its = { told: () => {}, ask, stop };
  function ask(question) {
    running ??= started();
    const id = ++lastId;
    running.postMessage({ id, ...question });
    return new Promise((resolve, reject) => waiting.set(id, { resolve, reject }));
  }
  function started() {
    const made = new Worker(URL.createObjectURL(new Blob([source], { type: 'text/javascript' })));
    made.onmessage = ({ data: { id, told, value, error } }) => {
      if (!waiting.has(id)) return;
      if (told !== undefined) return its.told(told);
      const { resolve, reject } = waiting.get(id);
      waiting.delete(id);
      if (error) reject(new Error(error));
      else resolve(value);
    };
    made.onerror = (e) => settle('reject', new Error(`the worker failed: ${e.message}`));
    made.postMessage({ modules });
    return made;
  }
  function stop() {
    running?.terminate();
    running = null;
    settle('reject', new Stopped('stopped'));
  }
  return its;
}

// ---- the worker's side of it

export function serveJobs(scope) {
  let modules = null;
  scope.onmessage = ({ data }) => {
    if (data.modules) {
      modules = data.modules;
      return;
    }
    const { id, cells, job, args } = data;
    const tell = (told) => scope.postMessage({ id, told });
    try {
      scope.postMessage({ id, value: job === 'stream' ? streamed(modules, cells, tell, ...args) : JOBS[job](programsOf(modules, cells, progressHooks(tell)), ...args) });
    } catch (error) {
      scope.postMessage({ id, error: String(error?.message ?? error) });
    }
  };
}

// How much of its input a program has read, and not more often than it can be shown.
function progressHooks(tell) {
  let last = Date.now();
  return (name, length) => ({
    onRead: (at) => {
      if (Date.now() - last < PROGRESS_EVERY || name !== 'plexplain') return;
      last = Date.now();
      tell(at / length);
    },
  });
}

function streamed(modules, cells, tell, name, input) {
  const { output, errors } = programsOf(modules, cells, () => ({ onWrite: (bytes) => tell(decoded(bytes)) }))[name](input);
  return { text: decoded(output), errors };
}

// Goes on with a value, at once where it is there.
export const when = (value, then) => (value instanceof Promise ? value.then(then) : then(value));
