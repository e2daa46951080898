// The extension: opens the language server with the first text of basin, and hands VS Code what it answers.
"use strict";

const vscode = require("vscode");
const { Wire, Shapes } = require("./client.js");

const shapes = new Shapes(vscode);
let wire = null;

const isOurs = (document) => document.uri.scheme === "file" && vscode.languages.match(FILES, document) > 0;
const FILES = [
  { language: "basin-rules" },
  { language: "basin-code" },
  { pattern: "**/*.require" },
  { pattern: "**/*model.toml" },
  { pattern: "**/*inputs.csv" },
];

const named = (document) => ({ textDocument: { uri: document.uri.toString() } });
const at = (document, position) => ({ ...named(document), position: { line: position.line, character: position.character } });

/** Asks the server; where it answers with an error, there is nothing to show. */
async function asked(method, params, token, shape) {
  try {
    const found = await wire.ask(`textDocument/${method}`, params, token);
    return found === null ? undefined : shape(found);
  } catch {
    return undefined;
  }
}

const all = (shape) => (found) => found.map((one) => shape(one));

function providers(legend) {
  const { languages } = vscode;
  return [
    languages.registerHoverProvider(FILES, {
      provideHover: (document, position, token) =>
        asked("hover", at(document, position), token, (one) =>
          new vscode.Hover(new vscode.MarkdownString(one.contents.value), shapes.range(one.range))),
    }),
    languages.registerCompletionItemProvider(FILES, {
      provideCompletionItems: (document, position, token) =>
        asked("completion", at(document, position), token, all((one) => shapes.item(one))),
    }, ".", '"', " "),
    languages.registerDefinitionProvider(FILES, {
      provideDefinition: (document, position, token) =>
        asked("definition", at(document, position), token, (one) => shapes.location(one)),
    }),
    languages.registerReferenceProvider(FILES, {
      provideReferences: (document, position, context, token) =>
        asked("references", { ...at(document, position), context }, token, all((one) => shapes.location(one))),
    }),
    languages.registerRenameProvider(FILES, {
      prepareRename: async (document, position, token) => {
        const one = await wire.ask("textDocument/prepareRename", at(document, position), token);
        return { range: shapes.range(one.range), placeholder: one.placeholder };
      },
      provideRenameEdits: async (document, position, newName, token) =>
        shapes.workspace(await wire.ask("textDocument/rename", { ...at(document, position), newName }, token)),
    }),
    languages.registerCodeActionsProvider(FILES, {
      provideCodeActions: (document, range, context, token) => {
        const params = { ...named(document), range: shapes.asked(range), context: { diagnostics: [] } };
        return asked("codeAction", params, token, all((one) => shapes.action(one)));
      },
    }),
    languages.registerDocumentSymbolProvider(FILES, {
      provideDocumentSymbols: (document, token) =>
        asked("documentSymbol", named(document), token, all((one) => shapes.symbol(one))),
    }),
    languages.registerDocumentFormattingEditProvider(FILES, {
      provideDocumentFormattingEdits: (document, options, token) =>
        asked("formatting", { ...named(document), options }, token, (found) => shapes.edits(found)),
    }),
    languages.registerDocumentSemanticTokensProvider(FILES, {
      provideDocumentSemanticTokens: (document, token) =>
        asked("semanticTokens/full", named(document), token, (one) => new vscode.SemanticTokens(new Uint32Array(one.data))),
    }, new vscode.SemanticTokensLegend(legend.tokenTypes, legend.tokenModifiers)),
  ];
}

function texts(found) {
  const open = (document) => {
    if (!isOurs(document)) return;
    const { languageId, version } = document;
    wire.tell("textDocument/didOpen", {
      textDocument: { ...named(document).textDocument, languageId, version, text: document.getText() },
    });
  };
  const changed = ({ document, contentChanges }) => {
    if (!isOurs(document) || !contentChanges.length) return;
    wire.tell("textDocument/didChange", {
      textDocument: { ...named(document).textDocument, version: document.version },
      contentChanges: [{ text: document.getText() }],
    });
  };
  const closed = (document) => {
    if (!isOurs(document)) return;
    wire.tell("textDocument/didClose", named(document));
    found.delete(document.uri);
  };
  vscode.workspace.textDocuments.forEach(open);
  return [
    vscode.workspace.onDidOpenTextDocument(open),
    vscode.workspace.onDidChangeTextDocument(changed),
    vscode.workspace.onDidCloseTextDocument(closed),
  ];
}

async function activate(context) {
  const settings = vscode.workspace.getConfiguration("basin");
  const found = vscode.languages.createDiagnosticCollection("basin");
  const told = (method, params) => {
    if (method === "textDocument/publishDiagnostics") {
      found.set(vscode.Uri.parse(params.uri), params.diagnostics.map((one) => shapes.diagnostic(one)));
    }
  };
  wire = new Wire(settings.get("server"), [], told);
  const folders = (vscode.workspace.workspaceFolders || []).map((one) => ({ uri: one.uri.toString(), name: one.name }));
  const options = { model: settings.get("model") || "", program: settings.get("program") !== false };
  const params = { processId: process.pid, rootUri: null, workspaceFolders: folders, capabilities: {}, initializationOptions: options };
  try {
    const can = (await wire.ask("initialize", params)).capabilities;
    wire.tell("initialized", {});
    context.subscriptions.push(found, ...providers(can.semanticTokensProvider.legend), ...texts(found));
  } catch (error) {
    vscode.window.showErrorMessage(`basin: ${error.message}: set basin.server to the path of tools/lsp`);
  }
}

function deactivate() {
  return wire && wire.end();
}

module.exports = { activate, deactivate };
