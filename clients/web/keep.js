// What the browser keeps of the page for the next time: the work, an exercise that was begun, the name of who does it. Where it keeps nothing, as in a private
// window, the page works as well.

const NAME = 'trigger-card';

export function keep(what, value) {
  try {
    localStorage.setItem(`${NAME} ${what}`, JSON.stringify(value));
  } catch {
    // no room, or no storage
  }
}

export function kept(what) {
  try {
    return JSON.parse(localStorage.getItem(`${NAME} ${what}`));
  } catch {
    return null;
  }
}

export function forget(what) {
  try {
    localStorage.removeItem(`${NAME} ${what}`);
  } catch {
    // no storage
  }
}
