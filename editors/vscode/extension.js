// Edits files in legacy encodings byte for byte, by the language server `legacy lsp`.
'use strict'

const fs = require('fs')
const vscode = require('vscode')
const { LanguageClient } = require('vscode-languageclient/node')
const { LegacyFiles, SCHEME, toFile, toLegacy } = require('./files')

/**
 * What the status bar shows of a text.
 *
 * @param {{encoding?: string, label: string, damaged?: number, lacking?: number, reason: ?string}} status the members of
 *   the server's notification `legacy/status`
 * @returns {string}
 */
function describe(status) {
  const counts = [[status.damaged, 'damaged'], [status.lacking, 'not in the encoding']]
  const named = counts.filter(([count]) => count).map(([count, what]) => `${count} ${what}`)
  const reason = status.reason ? ['not followed'] : []
  return [status.encoding || status.label, ...named, ...reason].join(', ')
}

/** Shows what the server reports of the text in the active editor. */
class StatusBar {
  constructor() {
    /** @type {Map<string, object>} the last status of each file, by the URI that the server has */
    this.known = new Map()
    this.item = vscode.window.createStatusBarItem(vscode.StatusBarAlignment.Right, 100)
  }

  take(status) {
    this.known.set(status.uri, status)
    this.show()
  }

  show() {
    const editor = vscode.window.activeTextEditor
    const status = editor && this.known.get(toFile(editor.document.uri).toString())
    if (!status) return this.item.hide()
    this.item.text = describe(status)
    this.item.tooltip = status.reason || `${status.label}, by ${status.origin}`
    this.item.show()
  }
}

/** Asks for a file and opens it as the text that its bytes are. */
async function open() {
  const chosen = await vscode.window.showOpenDialog({ canSelectMany: false, title: 'Open File as Legacy Text' })
  if (chosen) await vscode.window.showTextDocument(toLegacy(chosen[0]))
}

/** Starts the server and offers its files. VS Code calls this once. */
async function activate(context) {
  const [command, ...args] = vscode.workspace.getConfiguration('legacy').get('command')
  const client = new LanguageClient('legacy', 'Legacy text', { command, args }, {
    documentSelector: [{ scheme: 'file' }, { scheme: SCHEME }],
    uriConverters: { code2Protocol: (uri) => toFile(uri).toString(), protocol2Code: (text) => vscode.Uri.parse(text) },
  })
  const bar = new StatusBar()
  const files = new LegacyFiles(client, fs.promises)
  context.subscriptions.push(
    bar.item, files.changed, { dispose: () => client.stop() },
    vscode.workspace.registerFileSystemProvider(SCHEME, files, { isCaseSensitive: true }),
    vscode.window.onDidChangeActiveTextEditor(() => bar.show()),
    vscode.commands.registerCommand('legacy.open', open))
  client.onNotification('legacy/status', (status) => bar.take(status))
  await client.start()
}

module.exports = { activate, describe }
