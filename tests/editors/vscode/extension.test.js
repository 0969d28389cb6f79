// Tests of editors/vscode in Node, over the real server. tests/editors/test_vscode.py runs them.
'use strict'

const assert = require('assert')
const fs = require('fs')
const path = require('path')
const { after, before, test } = require('node:test')
const { vscode, LanguageClient } = require('./stand_ins')
const { activate, describe } = require('../../../editors/vscode/extension')

const folder = process.env.LEGACY_FILES
const context = { subscriptions: [] }
let files

before(async () => {
  await activate(context)
  files = vscode.workspace.providers.legacy
})
after(() => LanguageClient.made.stop())

/** A file of the folder with these bytes, as a text. */
function file(name, bytes) {
  const at = path.join(folder, name)
  fs.writeFileSync(at, Buffer.from(bytes))
  return vscode.Uri.file(at).with({ scheme: 'legacy' })
}

const bytesOf = (uri) => [...fs.readFileSync(uri.fsPath)]
const write = (uri, text) => files.writeFile(uri, Buffer.from(text, 'utf8'), { create: true, overwrite: true })

/** Opens a text as VS Code does: the client names the file. */
function open(uri, text) {
  const document = { uri, version: 1, getText: () => document.text, text }
  vscode.workspace.textDocuments.push(document)
  vscode.window.activeTextEditor = { document }
  const named = LanguageClient.made.options.uriConverters.code2Protocol(uri)
  LanguageClient.made.sendNotification('textDocument/didOpen', { textDocument: { uri: named, languageId: 'plaintext', version: 1, text } })
  document.type = (at, typed) => {
    document.version += 1
    document.text = document.text.slice(0, at) + typed + document.text.slice(at)
    const position = { line: 0, character: at }
    LanguageClient.made.sendNotification('textDocument/didChange', {
      textDocument: { uri: named, version: document.version }, contentChanges: [{ range: { start: position, end: position }, text: typed }],
    })
  }
  return document
}

test('a text is read and written with the bytes that nobody edited', async () => {
  const uri = file('kept.sjis', [0x87, 0x40, 0xff, 0x41, 0x0a])
  const text = (await files.readFile(uri)).toString()
  assert.strictEqual(text, '①\ufffdA\n')
  await write(uri, '①\ufffdB\n')
  assert.deepStrictEqual(bytesOf(uri), [0x87, 0x40, 0xff, 0x42, 0x0a])
  await write(uri, '①\ufffdBC\n')
  assert.deepStrictEqual(bytesOf(uri), [0x87, 0x40, 0xff, 0x42, 0x43, 0x0a])
})

test('a character that the encoding lacks is refused with its place, and nothing is written', async () => {
  const uri = file('refused.sjis', [0x41, 0x0a])
  await files.readFile(uri)
  await assert.rejects(write(uri, 'Aé\n'), (fault) => fault.code === 'Unavailable' && /line 1, character 2: U\+00E9/.test(fault.message))
  assert.deepStrictEqual(bytesOf(uri), [0x41, 0x0a])
})

test('a file that another program changed is refused', async () => {
  const uri = file('changed.sjis', [0x41, 0x0a])
  await files.readFile(uri)
  fs.writeFileSync(uri.fsPath, 'other\n')
  await assert.rejects(write(uri, 'B\n'), /another program/)
  assert.strictEqual(fs.readFileSync(uri.fsPath, 'latin1'), 'other\n')
})

test('the text in an editor is saved by the edits that the server followed', async () => {
  // (which of two equal characters was deleted only the edits tell)
  const uri = file('followed.sjis', [0x81, 0xe0, 0x87, 0x90, 0x0a])
  const document = open(uri, (await files.readFile(uri)).toString())
  document.text = '≒\n'
  document.version += 1
  const named = vscode.Uri.file(uri.fsPath).toString()
  LanguageClient.made.sendNotification('textDocument/didChange', {
    textDocument: { uri: named, version: document.version },
    contentChanges: [{ range: { start: { line: 0, character: 0 }, end: { line: 0, character: 1 } }, text: '' }],
  })
  document.type(1, 'x')
  await write(uri, document.text)
  assert.deepStrictEqual(bytesOf(uri), [0x87, 0x90, 0x78, 0x0a])
})

test('the status bar has the encoding and damage of the active editor', async () => {
  const uri = file('shown.sjis', [0x41, 0xff, 0x0a])
  open(uri, (await files.readFile(uri)).toString())
  for (let tries = 0; !/Shift_JIS, 1 damaged/.test(vscode.window.bar.text) && tries < 100; tries += 1) await new Promise((resolve) => setTimeout(resolve, 100))
  assert.strictEqual(vscode.window.bar.text, 'Shift_JIS, 1 damaged')
  assert.ok(vscode.window.bar.shown)
  assert.strictEqual(describe({ label: 'shift_jis', reason: 'it shows another text' }), 'shift_jis, not followed')
})

test('files and folders are those of the disk', async () => {
  const uri = file('disk.sjis', [0x41])
  const stat = await files.stat(uri)
  assert.deepStrictEqual([stat.type, stat.size], [vscode.FileType.File, 1])
  const names = await files.readDirectory(vscode.Uri.file(folder).with({ scheme: 'legacy' }))
  assert.ok(names.some(([name, type]) => name === 'disk.sjis' && type === vscode.FileType.File))
  const moved = vscode.Uri.file(path.join(folder, 'moved.sjis')).with({ scheme: 'legacy' })
  await files.rename(uri, moved, { overwrite: false })
  await assert.rejects(files.stat(uri), { code: 'FileNotFound' })
  await assert.rejects(files.readFile(uri), { code: 'FileNotFound' })
  await assert.rejects(files.rename(moved, moved, { overwrite: false }), { code: 'FileExists' })
  await files.delete(moved, { recursive: false })
  await assert.rejects(files.stat(moved), { code: 'FileNotFound' })
})

test('a file is made, and not over another one', async () => {
  const uri = vscode.Uri.file(path.join(folder, 'made.sjis')).with({ scheme: 'legacy' })
  await assert.rejects(files.writeFile(uri, Buffer.from('A\n'), { create: false, overwrite: true }), { code: 'FileNotFound' })
  await files.writeFile(uri, Buffer.from('図\n', 'utf8'), { create: true, overwrite: false })
  assert.deepStrictEqual(bytesOf(uri), [0x90, 0x7d, 0x0a])
  await assert.rejects(files.writeFile(uri, Buffer.from('A\n'), { create: true, overwrite: false }), { code: 'FileExists' })
})
