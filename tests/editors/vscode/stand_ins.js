// Stand-ins for the modules that VS Code gives an extension, as far as this one uses them. The client speaks to a real server.
'use strict'

const Module = require('module')
const { spawn } = require('child_process')
const url = require('url')

class Uri {
  constructor(scheme, fsPath) {
    Object.assign(this, { scheme, fsPath })
  }

  static file(fsPath) {
    return new Uri('file', fsPath)
  }

  static parse(text) {
    return Uri.file(url.fileURLToPath(text))
  }

  with({ scheme }) {
    return new Uri(scheme, this.fsPath)
  }

  toString() {
    return url.pathToFileURL(this.fsPath).toString().replace(/^file/, this.scheme)
  }
}

class EventEmitter {
  constructor() {
    this.fired = []
    this.event = () => ({ dispose: () => {} })
  }

  fire(event) {
    this.fired.push(...event)
  }
}

const faults = ['FileNotFound', 'FileExists', 'NoPermissions', 'Unavailable']
const FileSystemError = Object.fromEntries(faults.map((code) => [code, (what) => Object.assign(new Error(`${what}`), { code })]))
const nothing = () => ({ dispose: () => {} })

const vscode = {
  Uri, EventEmitter, FileSystemError,
  FileType: { File: 1, Directory: 2 },
  FileChangeType: { Changed: 1, Created: 2, Deleted: 3 },
  StatusBarAlignment: { Right: 2 },
  window: {
    activeTextEditor: undefined,
    createStatusBarItem: () => Object.assign(vscode.window.bar, { show: () => (vscode.window.bar.shown = true), hide: () => (vscode.window.bar.shown = false) }),
    bar: {},
    onDidChangeActiveTextEditor: nothing,
  },
  workspace: {
    textDocuments: [],
    providers: {},
    getConfiguration: () => ({ get: () => JSON.parse(process.env.LEGACY_COMMAND) }),
    registerFileSystemProvider: (scheme, provider) => {
      vscode.workspace.providers[scheme] = provider
      return nothing()
    },
  },
  commands: { registerCommand: nothing },
}

/** The client of vscode-languageclient, as far as it is used: messages framed as LSP says, over a process. */
class LanguageClient {
  constructor(id, name, server, options) {
    Object.assign(this, { server, options, waiting: new Map(), handlers: {}, number: 0, taken: Buffer.alloc(0) })
    LanguageClient.made = this
  }

  async start() {
    this.process = spawn(this.server.command, this.server.args, { stdio: ['pipe', 'pipe', 'inherit'] })
    this.process.stdout.on('data', (part) => this.take(part))
    await this.sendRequest('initialize', { processId: process.pid, rootUri: null, capabilities: {} })
    this.sendNotification('initialized', {})
  }

  async stop() {
    await this.sendRequest('shutdown', null)
    this.sendNotification('exit', null)
  }

  onNotification(method, handler) {
    this.handlers[method] = handler
  }

  sendNotification(method, params) {
    this.send({ jsonrpc: '2.0', method, params })
  }

  sendRequest(method, params) {
    const id = ++this.number
    this.send({ jsonrpc: '2.0', id, method, params })
    return new Promise((resolve, reject) => this.waiting.set(id, { resolve, reject }))
  }

  send(message) {
    const body = Buffer.from(JSON.stringify(message), 'utf8')
    this.process.stdin.write(`Content-Length: ${body.length}\r\n\r\n`)
    this.process.stdin.write(body)
  }

  take(part) {
    this.taken = Buffer.concat([this.taken, part])
    for (;;) {
      const end = this.taken.indexOf('\r\n\r\n')
      const length = end < 0 ? NaN : Number(/Content-Length: (\d+)/.exec(this.taken.toString('latin1', 0, end))[1])
      if (!(this.taken.length >= end + 4 + length)) return
      const message = JSON.parse(this.taken.toString('utf8', end + 4, end + 4 + length))
      this.taken = this.taken.subarray(end + 4 + length)
      this.handle(message)
    }
  }

  handle(message) {
    const asked = this.waiting.get(message.id)
    if (!asked) return (this.handlers[message.method] || (() => {}))(message.params)
    this.waiting.delete(message.id)
    if (message.error) asked.reject(new Error(message.error.message))
    else asked.resolve(message.result)
  }
}

const load = Module._load
Module._load = (name, ...rest) => {
  if (name === 'vscode') return vscode
  if (name === 'vscode-languageclient/node') return { LanguageClient }
  return load(name, ...rest)
}

module.exports = { vscode, LanguageClient }
