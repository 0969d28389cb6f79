// The file system `legacy:`, whose files are the texts of legacy files.
'use strict'

const path = require('path')
const vscode = require('vscode')

const SCHEME = 'legacy'

/** @returns {vscode.Uri} the file that a legacy text lies in */
const toFile = (uri) => (uri.scheme === SCHEME ? uri.with({ scheme: 'file' }) : uri)

/** @returns {vscode.Uri} the text of a file */
const toLegacy = (uri) => uri.with({ scheme: SCHEME })

/** The error of VS Code for a fault of the system. */
function systemFault(fault, uri) {
  const faults = vscode.FileSystemError
  if (fault.code === 'ENOENT') return faults.FileNotFound(uri)
  if (fault.code === 'EEXIST') return faults.FileExists(uri)
  if (fault.code === 'EACCES' || fault.code === 'EPERM') return faults.NoPermissions(uri)
  return faults.Unavailable(`${fault.message}`)
}

/**
 * A file system over the server. It reads and writes text by `legacy/read` and `legacy/write`; all else is done in the
 * folder that the files lie in. Bytes that no edit touched are unchanged.
 */
class LegacyFiles {
  /**
   * @param {{sendRequest: function(string, object): Promise<object>}} client the connection to the server
   * @param {typeof import('fs').promises} disk the system's files
   */
  constructor(client, disk) {
    this.client = client
    this.disk = disk
    /** @type {Map<string, {base: ?string, text: string}>} what was read or written last of each file */
    this.known = new Map()
    this.changed = new vscode.EventEmitter()
    this.onDidChangeFile = this.changed.event
  }

  watch() {
    // Files that another program changes are noticed by `stat` when VS Code saves, and by the server's `base`.
    return { dispose: () => {} }
  }

  async stat(uri) {
    const found = await this.attempt(uri, () => this.disk.stat(toFile(uri).fsPath))
    const type = found.isDirectory() ? vscode.FileType.Directory : vscode.FileType.File
    return { type, ctime: found.ctimeMs, mtime: found.mtimeMs, size: found.size }
  }

  async readDirectory(uri) {
    const entries = await this.attempt(uri, () => this.disk.readdir(toFile(uri).fsPath, { withFileTypes: true }))
    return entries.map((it) => [it.name, it.isDirectory() ? vscode.FileType.Directory : vscode.FileType.File])
  }

  async readFile(uri) {
    const answer = await this.ask('legacy/read', { uri: toFile(uri).toString() })
    if (!answer.exists) throw vscode.FileSystemError.FileNotFound(uri)
    this.known.set(uri.toString(), { base: answer.base, text: answer.text })
    return Buffer.from(answer.text, 'utf8')
  }

  async writeFile(uri, content, options) {
    const exists = await this.disk.stat(toFile(uri).fsPath).then(() => true, () => false)
    if (exists && !options.overwrite) throw vscode.FileSystemError.FileExists(uri)
    if (!exists && !options.create) throw vscode.FileSystemError.FileNotFound(uri)
    const text = Buffer.from(content).toString('utf8')
    const answer = await this.ask('legacy/write', { uri: toFile(uri).toString(), ...this.written(uri, text, exists) })
    this.known.set(uri.toString(), { base: answer.base, text })
    this.changed.fire([{ type: exists ? vscode.FileChangeType.Changed : vscode.FileChangeType.Created, uri }])
  }

  /**
   * What the server is to write. It followed each edit of a text that is open, and writes exactly the bytes of these edits. Any
   * other text is compared with the bytes that were read.
   */
  written(uri, text, exists) {
    const open = vscode.workspace.textDocuments.find((it) => it.uri.toString() === uri.toString())
    if (exists && open && open.getText() === text) return { version: open.version }
    const known = exists && this.known.get(uri.toString())
    return { text, base: known ? known.base : null }
  }

  async createDirectory(uri) {
    await this.attempt(uri, () => this.disk.mkdir(toFile(uri).fsPath))
  }

  async delete(uri, options) {
    await this.attempt(uri, () => this.disk.rm(toFile(uri).fsPath, { recursive: options.recursive }))
    this.known.delete(uri.toString())
    this.changed.fire([{ type: vscode.FileChangeType.Deleted, uri }])
  }

  async rename(from, to, options) {
    const wanted = toFile(to).fsPath
    const exists = await this.disk.stat(wanted).then(() => true, () => false)
    if (exists && !options.overwrite) throw vscode.FileSystemError.FileExists(to)
    await this.attempt(from, () => this.disk.mkdir(path.dirname(wanted), { recursive: true }).then(() => this.disk.rename(toFile(from).fsPath, wanted)))
    this.changed.fire([{ type: vscode.FileChangeType.Deleted, uri: from }, { type: vscode.FileChangeType.Created, uri: to }])
  }

  /** Asks the server. VS Code shows the message of a refusal, for example "Not saved: line 2, character 3: ..". */
  async ask(method, params) {
    try {
      return await this.client.sendRequest(method, params)
    } catch (fault) {
      throw vscode.FileSystemError.Unavailable(fault.message)
    }
  }

  async attempt(uri, job) {
    try {
      return await job()
    } catch (fault) {
      throw systemFault(fault, uri)
    }
  }
}

module.exports = { LegacyFiles, SCHEME, toFile, toLegacy }
