// A client of the Language Server Protocol for VS Code, with nothing but Node: it starts the server and speaks with it.
"use strict";

const { spawn } = require("child_process");

const SLOWEST = 20000; // milliseconds for an answer

/** Speaks with a server over its input and output. */
class Wire {
  constructor(command, words, told) {
    this.told = told; // takes what the server tells without being asked
    this.waiting = new Map();
    this.number = 0;
    this.bytes = Buffer.alloc(0);
    this.process = spawn(command, words, { stdio: ["pipe", "pipe", "ignore"] });
    this.process.stdout.on("data", (piece) => this.take(piece));
    this.process.stdin.on("error", () => {});
    this.process.on("error", (error) => this.fail(error));
    this.process.on("exit", () => this.fail(new Error("the language server has ended")));
  }

  take(piece) {
    this.bytes = Buffer.concat([this.bytes, piece]);
    for (;;) {
      const end = this.bytes.indexOf("\r\n\r\n");
      if (end < 0) return;
      const length = Number(/content-length: *(\d+)/i.exec(this.bytes.toString("latin1", 0, end))[1]);
      if (this.bytes.length < end + 4 + length) return;
      const message = JSON.parse(this.bytes.toString("utf8", end + 4, end + 4 + length));
      this.bytes = this.bytes.subarray(end + 4 + length);
      this.arrived(message);
    }
  }

  arrived(message) {
    if (message.method) {
      this.told(message.method, message.params);
      return;
    }
    const asked = this.waiting.get(message.id);
    this.waiting.delete(message.id);
    if (!asked) return;
    if (message.error) asked.reject(new Error(message.error.message));
    else asked.resolve(message.result);
  }

  fail(error) {
    for (const asked of this.waiting.values()) asked.reject(error);
    this.waiting.clear();
  }

  send(message) {
    const content = Buffer.from(JSON.stringify({ jsonrpc: "2.0", ...message }));
    this.process.stdin.write(`Content-Length: ${content.length}\r\n\r\n`);
    this.process.stdin.write(content);
  }

  tell(method, params) {
    this.send({ method, params });
  }

  /** Asks, and cancels where VS Code wants no answer any more, or where none comes. */
  ask(method, params, token) {
    const id = ++this.number;
    return new Promise((resolve, reject) => {
      const late = setTimeout(() => this.cancel(id), SLOWEST);
      const stop = token && token.onCancellationRequested(() => this.cancel(id));
      const done = (act) => (value) => {
        clearTimeout(late);
        if (stop) stop.dispose();
        act(value);
      };
      this.waiting.set(id, { resolve: done(resolve), reject: done(reject) });
      this.send({ id, method, params });
    });
  }

  cancel(id) {
    this.tell("$/cancelRequest", { id });
  }

  async end() {
    try {
      await this.ask("shutdown", null);
      this.tell("exit", null);
    } catch {
      this.process.kill();
    }
  }
}

/** Turns what the protocol has into what VS Code has, and back. */
class Shapes {
  constructor(vscode) {
    this.vscode = vscode;
  }

  position(one) {
    return new this.vscode.Position(one.line, one.character);
  }

  range(one) {
    return new this.vscode.Range(this.position(one.start), this.position(one.end));
  }

  asked(range) {
    const of = (one) => ({ line: one.line, character: one.character });
    return { start: of(range.start), end: of(range.end) };
  }

  diagnostic(one) {
    const made = new this.vscode.Diagnostic(this.range(one.range), one.message, one.severity - 1);
    made.source = one.source;
    made.code = one.code;
    made.tags = one.tags;
    return made;
  }

  edits(changes) {
    return (changes || []).map((one) => new this.vscode.TextEdit(this.range(one.range), one.newText));
  }

  workspace(edit) {
    const made = new this.vscode.WorkspaceEdit();
    for (const [uri, changes] of Object.entries((edit && edit.changes) || {})) {
      made.set(this.vscode.Uri.parse(uri), this.edits(changes));
    }
    return made;
  }

  location(one) {
    return one && new this.vscode.Location(this.vscode.Uri.parse(one.uri), this.range(one.range));
  }

  item(one) {
    const made = new this.vscode.CompletionItem(one.label, one.kind - 1);
    made.range = this.range(one.textEdit.range);
    made.insertText = one.textEdit.newText;
    for (const name of ["detail", "sortText", "filterText"]) made[name] = one[name];
    return made;
  }

  symbol(one) {
    const more = [this.range(one.range), this.range(one.selectionRange)];
    const made = new this.vscode.DocumentSymbol(one.name, one.detail || "", one.kind - 1, ...more);
    made.children = (one.children || []).map((child) => this.symbol(child));
    return made;
  }

  action(one) {
    const made = new this.vscode.CodeAction(one.title, this.vscode.CodeActionKind.QuickFix);
    made.edit = this.workspace(one.edit);
    made.isPreferred = one.isPreferred;
    made.diagnostics = one.diagnostics.map((diagnostic) => this.diagnostic(diagnostic));
    return made;
  }
}

module.exports = { Wire, Shapes };
