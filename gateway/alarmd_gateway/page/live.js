// The live connection. Whoever hears nothing for too long says that nothing is live any more, and tries again.

const SILENCE = 2200; // ms without a message, after which the connection counts as lost
const OPENING = 30000; // ms in which a new connection has to bring its first message
const WAITS = [300, 600, 1000, 2000, 3000]; // ms before the next try

export class Live {
  // `told` has the functions table(data), snapshot(data), changes(list), alive(), lost(since), and two that promise: ready(), whether to connect,
  // and plant(), the plant's table, or null
  constructor(told) {
    this.told = told;
    this.socket = null;
    this.heard = null; // when the last message came, by a clock that nobody sets, but which may stand still while the machine sleeps
    this.heardAt = null; // the same by the browser's time of day
    this.time = null; // the same by the gateway's time of day, where it has told that since; all of them in ms
    this.alive = false;
    this.tries = 0;
    this.number = null; // of the last change
    this.held = null; // messages that wait until the plant is known
    this.stopped = false;
    this.watch = setInterval(() => this.look(), 100);
    this.connect();
  }

  stop() {
    this.stopped = true;
    clearInterval(this.watch);
    this.socket?.close();
    this.socket = null; // a table that is still on its way isn't taken
  }

  connect() {
    if (this.stopped) return;
    const socket = new WebSocket(`${location.protocol === "https:" ? "wss" : "ws"}://${location.host}/api/live`);
    this.socket = socket;
    this.held = [];
    this.opened = performance.now();
    socket.onmessage = (event) => this.socket === socket && this.hear(socket, JSON.parse(event.data));
    socket.onclose = () => this.socket === socket && this.again();
  }

  // The plant is asked for once the first message is there: another one that is taken up after that ends the connection. Asked for before,
  // it might not be the one of the snapshot, and an alarm that is new in that one would never be shown.
  async hear(socket, message) {
    this.heard = performance.now();
    this.heardAt = Date.now();
    this.time = Date.parse(message.time ?? message.snapshot?.now) || this.time;
    if (this.held === null) {
      this.take(message);
      return;
    }
    this.held.push(message);
    if (this.held.length > 1) return;
    const table = await this.told.plant();
    if (this.socket !== socket) return;
    if (table === null) {
      this.drop();
      return;
    }
    this.told.table(table);
    const held = this.held;
    this.held = null;
    for (const one of held) this.take(one);
  }

  take(message) {
    if (message.type === "snapshot") {
      this.number = message.snapshot.number;
      this.tries = 0;
      this.told.snapshot(message.snapshot);
    } else if (message.type === "changes") {
      this.told.changes(message.changes);
      this.number = message.upto;
    }
    if (!this.alive && this.number !== null) {
      this.alive = true;
      this.told.alive();
    }
  }

  look() {
    const now = performance.now();
    if (this.alive && Math.max(now - this.heard, Date.now() - this.heardAt) > SILENCE) this.drop();
    else if (!this.alive && this.socket && now - this.opened > OPENING) this.drop();
  }

  drop() {
    const socket = this.socket;
    this.again();
    socket?.close();
  }

  again() {
    if (this.stopped || this.socket === null) return;
    this.socket = null;
    this.number = null;
    this.alive = false;
    this.told.lost(new Date(this.time ?? Date.now())); // the browser's clock may be wrong
    this.later();
  }

  // Tries again in a while, once the gateway answers.
  later() {
    const wait = WAITS[Math.min(this.tries, WAITS.length - 1)];
    this.tries += 1;
    setTimeout(async () => {
      if (this.stopped) return;
      if (await this.told.ready()) this.connect();
      else this.later();
    }, wait);
  }
}
