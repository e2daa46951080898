// VS Code's interface as far as the extension uses it, with the language server behind: each provider is asked once.
"use strict";

const Module = require("module");
const path = require("path");
const assert = require("assert");

const [server, folder, packed] = process.argv.slice(2);
const of = (...names) => class { constructor(...values) { names.forEach((name, at) => { this[name] = values[at]; }); } };
const providers = {};
const heard = {};
const shown = new Map();
const on = (name) => (act) => { heard[name] = act; return { dispose() {} }; };
const register = (name) => (files, provider) => { providers[name] = provider; return { dispose() {} }; };
const uri = (text) => ({ scheme: "file", toString: () => text });
const names = ["Hover", "CompletionItem", "Definition", "Reference", "Rename", "CodeActions", "DocumentSymbol"];
const languages = {
  match: () => 10,
  createDiagnosticCollection: () => ({ set: (at, found) => shown.set(at.toString(), found), delete: (at) => shown.delete(at.toString()) }),
  registerDocumentFormattingEditProvider: register("Formatting"),
  registerDocumentSemanticTokensProvider: register("Tokens"),
};
for (const name of names) languages[`register${name}Provider`] = register(name);
class WorkspaceEdit { constructor() { this.held = new Map(); } set(at, edits) { this.held.set(at.toString(), edits); } }
const vscode = {
  Position: of("line", "character"), Range: of("start", "end"), Diagnostic: of("range", "message", "severity"),
  TextEdit: of("range", "newText"), Location: of("uri", "range"), CompletionItem: of("label", "kind"), WorkspaceEdit,
  DocumentSymbol: of("name", "detail", "kind", "range", "selectionRange"), CodeAction: of("title", "kind"),
  CodeActionKind: { QuickFix: "quickfix" }, Hover: of("contents", "range"), MarkdownString: of("value"),
  SemanticTokens: of("data"), SemanticTokensLegend: of("types", "modifiers"), Uri: { parse: uri }, languages,
  window: { showErrorMessage: (text) => { throw new Error(text); } },
  workspace: {
    textDocuments: [], workspaceFolders: undefined,
    getConfiguration: () => ({ get: (name) => ({ server, program: false })[name] }),
    onDidOpenTextDocument: on("open"), onDidChangeTextDocument: on("change"), onDidCloseTextDocument: on("close"),
  },
};
const load = Module._load;
Module._load = (name, ...more) => (name === "vscode" ? vscode : load(name, ...more));
const extension = require(packed);

const SLIP = 'RULE "pass":\n  Dam.Outflow[t] := Max(Dam.Inflow[t], 40);\nENDRULE\n';
const document = { uri: uri(`file://${folder}/policy.rpl`), languageId: "basin-rules", version: 1, getText: () => document.text, text: SLIP };

async function until(what) {
  for (let turn = 0; turn < 1000; turn++) {
    if (what()) return;
    await new Promise((done) => setTimeout(done, 20));
  }
  throw new Error(`never: ${what}`);
}

async function main() {
  const context = { subscriptions: [] };
  await extension.activate(context);
  assert.ok(context.subscriptions.length > 10);
  heard.open(document);
  const found = () => shown.get(document.uri.toString());
  await until(() => found());
  assert.strictEqual(found().length, 1);
  assert.ok(found()[0].message.includes("`40` is a plain number"));
  assert.deepStrictEqual([found()[0].range.start.line, found()[0].range.start.character, found()[0].severity], [1, 39, 0]);
  const actions = await providers.CodeActions.provideCodeActions(document, found()[0].range, {}, undefined);
  const [edit] = actions[0].edit.held.get(document.uri.toString());
  const lines = SLIP.split("\n");
  lines[1] = lines[1].slice(0, edit.range.start.character) + edit.newText + lines[1].slice(edit.range.end.character);
  document.text = lines.join("\n");
  assert.ok(document.text.includes('Max(Dam.Inflow[t], 40 "m3/step");'));
  document.version = 2;
  heard.change({ document, contentChanges: [{}] });
  await until(() => found().length === 0);
  const spot = new vscode.Position(1, 3);
  assert.ok((await providers.Hover.provideHover(document, spot)).contents.value.includes("Dam"));
  const items = await providers.CompletionItem.provideCompletionItems(document, new vscode.Position(1, 6));
  assert.ok(items.some((one) => one.label === "Outflow" && one.insertText === "Outflow"));
  assert.ok((await providers.Definition.provideDefinition(document, spot)).uri.toString().endsWith("model.toml"));
  assert.ok((await providers.Reference.provideReferences(document, spot, { includeDeclaration: true })).length >= 3);
  assert.strictEqual((await providers.Rename.prepareRename(document, spot)).placeholder, "Dam");
  const renamed = await providers.Rename.provideRenameEdits(document, spot, "Lake");
  assert.deepStrictEqual([...renamed.held.keys()].map((one) => path.basename(one)).sort(), ["model.toml", "policy.rpl"]);
  await assert.rejects(providers.Rename.provideRenameEdits(document, spot, "1"));
  assert.strictEqual((await providers.DocumentSymbol.provideDocumentSymbols(document))[0].name, "1 pass");
  document.text = document.text.replace(" := ", ":=");
  document.version = 3;
  heard.change({ document, contentChanges: [{}] });
  assert.strictEqual((await providers.Formatting.provideDocumentFormattingEdits(document, {})).length, 1);
  assert.strictEqual((await providers.Tokens.provideDocumentSemanticTokens(document)).data.length % 5, 0);
  heard.close(document);
  assert.ok(!found());
  await extension.deactivate();
  console.log("vscode: a slip is shown and mended, and each provider answers: yes");
}

main().catch((error) => { console.error(error); process.exit(1); });
