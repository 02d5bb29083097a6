// A browser without a window, driven through its DevTools protocol over a pipe.
import { spawn } from "node:child_process";

export class Browser {
  constructor(program, folder) {
    const words = ["--headless=new", "--no-sandbox", "--remote-debugging-pipe", "--disable-gpu", "--hide-scrollbars"];
    const stdio = ["ignore", "ignore", "ignore", "pipe", "pipe"];
    this.process = spawn(program, [...words, "--no-first-run", "--user-data-dir=" + folder], { stdio });
    this.asked = new Map();
    this.count = 0;
    let read = "";
    this.process.stdio[4].on("data", (bytes) => {
      const parts = (read + bytes).split("\0");
      read = parts.pop();
      parts.forEach((part) => this.hear(JSON.parse(part)));
    });
    this.process.on("exit", () => this.asked.forEach(({ refuse }) => refuse(new Error("the browser ended"))));
  }

  hear({ id, method, params, result, error }) {
    const waits = this.asked.get(id);
    if (waits) {
      this.asked.delete(id);
      error ? waits.refuse(new Error(error.message)) : waits.answer(result);
    }
    if (method === "Runtime.exceptionThrown") throw new Error(params.exceptionDetails.exception.description);
  }

  ask(method, params = {}) {
    const id = ++this.count;
    this.process.stdio[3].write(JSON.stringify({ id, method, params, sessionId: this.session }) + "\0");
    return new Promise((answer, refuse) => this.asked.set(id, { answer, refuse }));
  }

  async begin() {
    const { targetId } = await this.ask("Target.createTarget", { url: "about:blank" });
    this.session = (await this.ask("Target.attachToTarget", { targetId, flatten: true })).sessionId;
    await this.ask("Page.enable");
    await this.ask("Runtime.enable");
  }

  async end() {
    const ended = new Promise((answer) => this.process.on("exit", answer));
    this.session = undefined;
    this.ask("Browser.close").catch(() => {});
    await ended;
  }

  // Shows a page in a window of this size, in the colours of day or night.
  async window(width, height, dark, telephone) {
    const size = { width, height, deviceScaleFactor: telephone ? 2 : 1, mobile: telephone };
    await this.ask("Emulation.setDeviceMetricsOverride", size);
    const colours = { name: "prefers-color-scheme", value: dark ? "dark" : "light" };
    await this.ask("Emulation.setEmulatedMedia", { features: [colours] });
  }

  // Opens a page anew, also where it is that which is open.
  async open(address) {
    await this.ask("Page.navigate", { url: "about:blank" });
    await this.ask("Page.navigate", { url: address });
    const is_open = `(url) => document.readyState === "complete" && location.href.split("#")[0] === url.split("#")[0]`;
    for (let k = 0; !(await this.run(is_open, address).catch(() => false)); k++) {
      if (k === 1000) throw new Error(address + " doesn't open");
      await new Promise((answer) => setTimeout(answer, 20));
    }
    await this.drawn();
  }

  // What a function that is given as text answers in the page.
  async run(text, ...words) {
    const expression = "(" + text + ")(" + words.map((it) => JSON.stringify(it)).join(",") + ")";
    const answer = await this.ask("Runtime.evaluate", { expression, awaitPromise: true, returnByValue: true });
    if (answer.exceptionDetails) throw new Error(answer.exceptionDetails.exception.description);
    return answer.result.value;
  }

  // Waits until all that was done is drawn.
  drawn() {
    return this.run("() => new Promise((answer) => requestAnimationFrame(() => requestAnimationFrame(answer)))");
  }

  async key(key) {
    const text = key.length === 1 ? key : undefined;
    await this.ask("Input.dispatchKeyEvent", { type: "keyDown", key, text });
    await this.ask("Input.dispatchKeyEvent", { type: "keyUp", key });
  }

  async mouse(type, x, y) {
    const buttons = type === "mouseReleased" ? 0 : 1;
    await this.ask("Input.dispatchMouseEvent", { type, x, y, button: "left", buttons, clickCount: 1 });
  }

  async picture() {
    return Buffer.from((await this.ask("Page.captureScreenshot", { format: "png" })).data, "base64");
  }
}
