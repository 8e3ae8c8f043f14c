// The client of the language server, without dependencies. It starts `viaduct lsp`, and hands over what the server says.
const { spawn } = require('child_process');
const vscode = require('vscode');

// Messages in frames over the streams of a program.
class Connection {
  constructor(command, args, onMessage, onEnd) {
    this.program = spawn(command, args, { stdio: ['pipe', 'pipe', 'inherit'] });
    this.left = Buffer.alloc(0);
    this.waiting = new Map();
    this.next = 1;
    this.onMessage = onMessage;
    this.program.stdout.on('data', (bytes) => this.take(bytes));
    this.program.stdin.on('error', () => {});
    this.program.on('error', onEnd);
    this.program.on('exit', onEnd);
  }

  send(message) {
    const body = Buffer.from(JSON.stringify({ jsonrpc: '2.0', ...message }));
    this.program.stdin.write(`Content-Length: ${body.length}\r\n\r\n`);
    this.program.stdin.write(body);
  }

  notify(method, params) {
    this.send({ method, params });
  }

  ask(method, params) {
    const id = this.next++;
    return new Promise((resolve, reject) => {
      this.waiting.set(id, { resolve, reject });
      this.send({ id, method, params });
    });
  }

  take(bytes) {
    this.left = Buffer.concat([this.left, bytes]);
    for (;;) {
      const head = this.left.indexOf('\r\n\r\n');
      if (head < 0) return;
      const size = Number(/Content-Length: *(\d+)/i.exec(this.left.toString('latin1', 0, head))[1]);
      const begin = head + 4;
      if (this.left.length < begin + size) return;
      const message = JSON.parse(this.left.toString('utf8', begin, begin + size));
      this.left = this.left.subarray(begin + size);
      this.told(message);
    }
  }

  told(message) {
    const asked = this.waiting.get(message.id);
    if (message.method) this.onMessage(message);
    else if (asked) {
      this.waiting.delete(message.id);
      if (message.error) asked.reject(new Error(message.error.message));
      else asked.resolve(message.result);
    }
  }
}

const range = (r) => new vscode.Range(r.start.line, r.start.character, r.end.line, r.end.character);
const place = (p) => ({ line: p.line, character: p.character });
const named = (document) => ({ uri: document.uri.toString() });
const at = (document, position) => ({ textDocument: named(document), position: place(position) });

// What the server publishes of a document, as the editor shows it.
function diagnostic(said) {
  const shown = new vscode.Diagnostic(range(said.range), said.message, said.severity - 1);
  shown.source = said.source;
  shown.code = said.code;
  shown.tags = said.tags;
  return shown;
}

const location = (said) => new vscode.Location(vscode.Uri.parse(said.uri), range(said.range));

function edit(said) {
  const edits = new vscode.WorkspaceEdit();
  for (const change of said.documentChanges) {
    for (const one of change.edits) edits.replace(vscode.Uri.parse(change.textDocument.uri), range(one.range), one.newText);
  }
  return edits;
}

// The numbers of the protocol begin with 1, and those of the editor with 0.
const symbol = (said) => new vscode.DocumentSymbol(said.name, '', said.kind - 1, range(said.range), range(said.selectionRange));
const word = (said) => new vscode.CompletionItem(said.label, said.kind - 1);

exports.activate = async (context) => {
  const shown = vscode.languages.createDiagnosticCollection('viaduct');
  const command = vscode.workspace.getConfiguration('viaduct').get('command', 'viaduct');
  const end = (cause) => cause instanceof Error && vscode.window.showErrorMessage(`${command} lsp: ${cause.message}`);
  const server = new Connection(command, ['lsp'], (message) => {
    if (message.method !== 'textDocument/publishDiagnostics') return;
    shown.set(vscode.Uri.parse(message.params.uri), message.params.diagnostics.map(diagnostic));
  }, end);
  await server.ask('initialize', { processId: process.pid, rootUri: null, capabilities: {} });
  server.notify('initialized', {});

  const ours = (document) => document.languageId === 'viaduct';
  const opened = (document) => ours(document) && server.notify('textDocument/didOpen', {
    textDocument: { ...named(document), languageId: 'viaduct', version: document.version, text: document.getText() },
  });
  vscode.workspace.textDocuments.forEach(opened);
  const languages = vscode.languages;
  context.subscriptions.push(
    shown,
    vscode.workspace.onDidOpenTextDocument(opened),
    vscode.workspace.onDidChangeTextDocument(({ document }) => ours(document) && server.notify('textDocument/didChange', {
      textDocument: { ...named(document), version: document.version }, contentChanges: [{ text: document.getText() }],
    })),
    vscode.workspace.onDidCloseTextDocument((document) => ours(document) && server.notify('textDocument/didClose', { textDocument: named(document) })),
    languages.registerHoverProvider('viaduct', {
      provideHover: async (document, position) => {
        const said = await server.ask('textDocument/hover', at(document, position));
        return said && new vscode.Hover(new vscode.MarkdownString().appendCodeblock(said.contents.value, 'viaduct'), said.range && range(said.range));
      },
    }),
    languages.registerDefinitionProvider('viaduct', {
      provideDefinition: async (document, position) => ((await server.ask('textDocument/definition', at(document, position))) || []).map(location),
    }),
    languages.registerReferenceProvider('viaduct', {
      provideReferences: async (document, position) => ((await server.ask('textDocument/references', at(document, position))) || []).map(location),
    }),
    languages.registerRenameProvider('viaduct', {
      provideRenameEdits: async (document, position, newName) => {
        const said = await server.ask('textDocument/rename', { ...at(document, position), newName });
        return said && edit(said);
      },
    }),
    languages.registerDocumentSymbolProvider('viaduct', {
      provideDocumentSymbols: async (document) => (await server.ask('textDocument/documentSymbol', { textDocument: named(document) })).map(symbol),
    }),
    languages.registerCompletionItemProvider('viaduct', {
      provideCompletionItems: async (document, position) => (await server.ask('textDocument/completion', at(document, position))).map(word),
    }),
    { dispose: () => server.ask('shutdown', null).then(() => server.notify('exit', null)) },
  );
};
