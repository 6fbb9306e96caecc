// Questions to the server. On each channel one is under way; of those that come meanwhile the newest is asked next, and the others are dropped.
const SOON = 250;     // milliseconds after which it is said that an answer is awaited
const PATIENCE = 1000;  // milliseconds between two looks at what it waits for

export class Fault extends Error {
  constructor(said) {
    super(said.said);
    Object.assign(this, said);
  }
}

export async function ask(path, question) {
  let reply, answer;
  try {
    reply = await fetch(path, {method: "POST", headers: {"Content-Type": "application/json"}, body: JSON.stringify(question)});
    answer = await reply.json();
  } catch {
    throw new Fault({kind: "silent", said: "There is no answer: the server isn't running. Start it again, and reload."});
  }
  if (!reply.ok) throw new Fault(answer);
  return answer;
}

let pending = 0;

function count(more) {
  pending += more;
  document.body.setAttribute("aria-busy", String(pending > 0));
}

// `waits` is called with a text while an answer is awaited, and with null when it is there.
export class Channel {
  constructor(path, waits, answered, failed) {
    Object.assign(this, {path, waits, answered, failed, asked: null, isBusy: false});
  }

  ask(question) {
    this.asked = question;
    if (!this.isBusy) this.work();
  }

  async work() {
    this.isBusy = true;
    count(1);
    const timer = setTimeout(() => this.wait(), SOON);
    while (this.asked) {
      const question = this.asked;
      this.asked = null;
      try {
        const answer = await ask(this.path, question);
        if (!this.asked) this.answered(answer, question);
      } catch (fault) {
        if (!(fault instanceof Fault)) throw fault;
        if (!this.asked) this.failed(fault, question);
      }
    }
    clearTimeout(timer);
    this.isBusy = false;
    this.waits(null);
    count(-1);
  }

  async wait() {
    const began = performance.now() - SOON;
    while (this.isBusy) {
      const seconds = Math.round((performance.now() - began) / 1000);
      let text = seconds > 0 ? `Waiting for the answer, ${seconds} s` : "Waiting for the answer";
      if (seconds > 0) {
        const {count: asking} = await ask("/waiting", {}).catch(() => ({count: 0}));
        if (asking > 1) text += `; ${asking - 1} other ${asking === 2 ? "question is" : "questions are"} being answered`;
      }
      if (!this.isBusy) return;
      this.waits(text);
      await new Promise(done => setTimeout(done, PATIENCE));
    }
  }
}

export const busy = work => {
  count(1);
  return work().finally(() => count(-1));
};
