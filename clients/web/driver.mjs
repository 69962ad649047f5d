// A browser, driven by WebDriver's commands: Chromium through Debian's chromedriver, over HTTP; Firefox through its own Marionette, which takes the same
// commands over a socket, since Debian 12 has no geckodriver. Both give one page with the same calls.
import { spawn } from 'node:child_process';
import fs from 'node:fs';
import net from 'node:net';
import os from 'node:os';
import path from 'node:path';

const PATIENCE = 30000;

// ---- Chromium

const ROUTES = {
  Navigate: ['POST', 'url'], ExecuteAsyncScript: ['POST', 'execute/async'], PerformActions: ['POST', 'actions'], TakeScreenshot: ['GET', 'screenshot'],
  SetTimeouts: ['POST', 'timeouts'], Print: ['POST', 'print'], DevTools: ['POST', 'goog/cdp/execute'], DeleteSession: ['DELETE', ''],
};

export async function openChromium() {
  const profile = fs.mkdtempSync(path.join(os.tmpdir(), 'card-page-'));
  const child = spawn('chromedriver', ['--port=0'], { stdio: ['ignore', 'pipe', 'ignore'] });
  const port = await new Promise((resolve, reject) => {
    child.stdout.on('data', (text) => { const found = String(text).match(/successfully on port (\d+)/); if (found) resolve(found[1]); });
    child.on('exit', () => reject(new Error('chromedriver does not start')));
  });
  const asked = async (method, route, body) => {
    const answer = await fetch(`http://127.0.0.1:${port}/session${route}`, { method, ...(method === 'POST' ? { body: JSON.stringify(body) } : {}) });
    const { value } = await answer.json();
    if (value?.error) throw new Error(`${value.error}: ${value.message}`);
    return value;
  };
  const args = ['--headless=new', '--no-sandbox', '--disable-gpu', '--hide-scrollbars', `--user-data-dir=${profile}`];
  const { sessionId, capabilities } = await asked('POST', '', { capabilities: { alwaysMatch: { browserName: 'chrome', 'goog:chromeOptions': { args } } } });
  const send = (name, body = {}) => asked(ROUTES[name][0], `/${sessionId}${ROUTES[name][1] && `/${ROUTES[name][1]}`}`, body);
  const devTools = (cmd, params) => send('DevTools', { cmd, params });
  return {
    version: `Chromium ${capabilities.browserVersion}`,
    page: pageOf(send, {
      devTools,
      size: (width, height, mobile = false) => devTools('Emulation.setDeviceMetricsOverride', { width, height, deviceScaleFactor: 1, mobile }),
      touch: (on) => devTools('Emulation.setTouchEmulationEnabled', { enabled: on }),
      dark: (on) => devTools('Emulation.setEmulatedMedia', { media: '', features: [{ name: 'prefers-color-scheme', value: on ? 'dark' : 'light' }] }),
    }),
    close: async () => {
      await send('DeleteSession').catch(() => {});
      child.kill();
      fs.rmSync(profile, { recursive: true, force: true, maxRetries: 5 });
    },
  };
}

// ---- Firefox

export async function openFirefox() {
  const profile = fs.mkdtempSync(path.join(os.tmpdir(), 'card-page-'));
  const port = await freePort();
  fs.writeFileSync(path.join(profile, 'user.js'), `user_pref("marionette.port", ${port});\n`);
  const child = spawn('firefox-esr', ['--headless', '--marionette', '--no-remote', '--profile', profile], { stdio: 'ignore' });
  const { ask, socket } = await connected(port);
  const send = async (name, body) => {
    const found = await ask(`WebDriver:${name}`, body);
    return found && 'value' in found ? found.value : found;
  };
  const { capabilities } = await send('NewSession', { capabilities: { alwaysMatch: {} } });
  const inBrowser = async (script) => {
    await ask('Marionette:SetContext', { value: 'chrome' });
    await ask('WebDriver:ExecuteScript', { script, args: [] });
    await ask('Marionette:SetContext', { value: 'content' });
  };
  const page = pageOf(send, {
    // the size of the page, not of the window around it
    size: async (width, height) => {
      const frame = await page.evaluate('[window.outerWidth - window.innerWidth, window.outerHeight - window.innerHeight]');
      await ask('WebDriver:SetWindowRect', { width: width + frame[0], height: height + frame[1] });
    },
    touch: async () => {},
    dark: (on) => inBrowser(`Services.prefs.setIntPref('layout.css.prefers-color-scheme.content-override', ${on ? 0 : 1})`),
  });
  return {
    version: `Firefox ${capabilities.browserVersion}`,
    page,
    close: async () => {
      await ask('Marionette:Quit', { flags: ['eForceQuit'] }).catch(() => {});
      await new Promise((resolve) => (child.exitCode === null ? child.on('exit', resolve) : resolve()));
      socket.destroy();
      fs.rmSync(profile, { recursive: true, force: true, maxRetries: 5 });
    },
  };
}

const freePort = () => new Promise((resolve) => {
  const server = net.createServer();
  server.listen(0, '127.0.0.1', () => {
    const { port } = server.address();
    server.close(() => resolve(port));
  });
});

async function connected(port) {
  const end = Date.now() + PATIENCE;
  for (;;) {
    const socket = net.connect(port, '127.0.0.1');
    const open = await new Promise((resolve) => { socket.on('connect', () => resolve(true)); socket.on('error', () => resolve(false)); });
    if (open) return { socket, ask: asker(socket) };
    if (Date.now() > end) throw new Error('Firefox does not answer');
    await new Promise((resolve) => setTimeout(resolve, 200));
  }
}

// "LENGTH:JSON", where a command is [0, id, name, parameters] and an answer [1, id, error, result].
function asker(socket) {
  const waiting = new Map();
  let lastId = 0;
  let rest = Buffer.alloc(0);
  socket.on('data', (chunk) => {
    rest = Buffer.concat([rest, chunk]);
    for (;;) {
      const colon = rest.indexOf(':');
      const length = Number(rest.subarray(0, Math.max(colon, 0)).toString());
      if (colon < 0 || rest.length < colon + 1 + length) return;
      receive(JSON.parse(rest.subarray(colon + 1, colon + 1 + length).toString()));
      rest = rest.subarray(colon + 1 + length);
    }
  });
  function receive(message) {
    if (!Array.isArray(message)) return;
    const [, id, error, result] = message;
    const { resolve, reject } = waiting.get(id);
    waiting.delete(id);
    if (error) reject(new Error(`${error.error}: ${error.message}`));
    else resolve(result);
  }
  return (name, parameters = {}) => {
    const id = ++lastId;
    const text = JSON.stringify([0, id, name, parameters]);
    socket.write(`${Buffer.byteLength(text)}:${text}`);
    return new Promise((resolve, reject) => waiting.set(id, { resolve, reject }));
  };
}

// ---- the page

const KEYS = {
  Tab: '\ue004', Escape: '\ue00c', ArrowUp: '\ue013', ArrowDown: '\ue015', Enter: '\ue007', Home: '\ue011', End: '\ue010', ArrowRight: '\ue014', ArrowLeft: '\ue012',
};
export const SHIFT = '\ue008';
export const CONTROL = '\ue009';

const WAIT = { type: 'pause', duration: 0 };

const quoted = (text) => JSON.stringify(text);

function pageOf(send, own) {
  const evaluate = async (expression) => {
    const answer = '(value) => done({ value }), (e) => done({ error: String(e) })';
    const script = `const done = arguments[arguments.length - 1]; Promise.resolve().then(() => (${expression})).then(${answer});`;
    const { value, error } = await send('ExecuteAsyncScript', { script, args: [], sandbox: null });
    if (error) throw new Error(`${expression}: ${error}`);
    return value;
  };
  const until = async (expression, patience = 8000) => {
    const end = Date.now() + patience;
    while (!(await evaluate(expression))) {
      if (Date.now() > end) throw new Error(`never true: ${expression}`);
      await new Promise((resolve) => setTimeout(resolve, 30));
    }
  };
  const stroke = (value) => [{ type: 'keyDown', value }, { type: 'keyUp', value }];
  const held = (key, actions) => (key ? [{ type: 'keyDown', value: key }, ...actions, { type: 'keyUp', value: key }] : actions);
  // While a key is held. Both sources get the same number of actions: chromedriver 156 ends where they differ.
  const withKey = (key, source, actions) => {
    const around = key ? [WAIT, ...actions, WAIT] : actions;
    const keys = key ? [{ type: 'key', id: 'keys', actions: held(key, actions.map(() => WAIT)) }] : [];
    return send('PerformActions', { actions: [...keys, { ...source, actions: around }] });
  };
  const pressAt = (x, y, key = null) => {
    const move = { type: 'pointerMove', x: Math.round(x), y: Math.round(y), duration: 0 };
    return withKey(key, { type: 'pointer', id: 'mouse', parameters: { pointerType: 'mouse' } }, [move, { type: 'pointerDown', button: 0 }, { type: 'pointerUp', button: 0 }]);
  };
  // in the middle of what the selector finds: a press misses what lies under something else
  const middle = (selector) => evaluate(`(() => { const e = document.querySelector(${quoted(selector)}); e.scrollIntoView({ block: 'nearest' });
    const r = e.getBoundingClientRect(); return [r.x + r.width / 2, r.y + r.height / 2]; })()`);
  return {
    ...own, evaluate, until, pressAt,
    // what was kept of an earlier visit is left, or begun anew
    open: async (url, asKept = false) => {
      await send('Navigate', { url: 'about:blank' });
      await send('Navigate', { url });
      await until('document.documentElement?.dataset.ready === "yes"');
      if (!asKept) await evaluate('document.getElementById("anew")?.click()');
      await evaluate('(window.complaints ??= [], window.addEventListener("error", (e) => window.complaints.push(e.message)))');
    },
    click: (selector) => evaluate(`document.querySelector(${quoted(selector)}).click()`),
    press: async (selector, key = null) => pressAt(...await middle(selector), key),
    type: (text) => evaluate(`document.execCommand('insertText', false, ${quoted(text)})`),
    key: (key, holding = null) => send('PerformActions', { actions: [{ type: 'key', id: 'keys', actions: held(holding, stroke(KEYS[key] ?? key)) }] }),
    wheel: async (selector, deltaY, holding) => {
      const [x, y] = (await middle(selector)).map(Math.round);
      await withKey(holding, { type: 'wheel', id: 'wheel' }, [{ type: 'scroll', x, y, deltaX: 0, deltaY, origin: 'viewport', duration: 0 }]);
    },
    text: (selector) => evaluate(`document.querySelector(${quoted(selector)}).innerText`),
    texts: (selector) => evaluate(`[...document.querySelectorAll(${quoted(selector)})].map(e => e.innerText.trim())`),
    shot: async (file) => fs.writeFileSync(file, Buffer.from(await send('TakeScreenshot', { full: false }), 'base64')),
    pdf: async (file) => fs.writeFileSync(file, Buffer.from(await send('Print', { background: true, page: { width: 21, height: 29.7 } }), 'base64')),
    complaints: () => evaluate('window.complaints ?? []'),
  };
}
