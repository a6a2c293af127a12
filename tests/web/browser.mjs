// Debian's chromium, headless, driven over a pipe by its own protocol: no other program is needed.
import { spawn } from 'node:child_process'
import { mkdtempSync, rmSync } from 'node:fs'
import { tmpdir } from 'node:os'
import { join } from 'node:path'

export const open = async (program = 'chromium') => {
  const home = mkdtempSync(join(tmpdir(), 'wairokabi-web-'))
  const words = ['--headless=new', '--remote-debugging-pipe', '--no-sandbox', '--disable-gpu', '--no-first-run', '--disable-extensions', '--disable-background-networking',
    '--hide-scrollbars', '--force-device-scale-factor=1', `--user-data-dir=${home}`, 'about:blank']
  const child = spawn(program, words, { stdio: ['ignore', 'ignore', 'ignore', 'pipe', 'pipe'] })
  const [, , , to, from] = child.stdio
  const waiting = new Map()
  const listeners = []
  let next = 0
  let rest = ''
  from.setEncoding('utf8')
  from.on('data', text => {
    const whole = (rest + text).split('\0')
    rest = whole.pop()
    for (const message of whole.map(JSON.parse)) {
      const asked = waiting.get(message.id)
      if (asked === undefined) for (const listener of listeners) listener(message)
      else {
        waiting.delete(message.id)
        if (message.error === undefined) asked.resolve(message.result)
        else asked.reject(new Error(`${asked.method}: ${message.error.message}`))
      }
    }
  })
  const send = (method, params = {}, sessionId) => new Promise((resolve, reject) => {
    const id = ++next
    waiting.set(id, { resolve, reject, method })
    to.write(`${JSON.stringify({ id, method, params, sessionId })}\0`)
  })
  const close = async () => {
    await Promise.race([send('Browser.close').catch(() => {}), new Promise(resolve => setTimeout(resolve, 3000))])
    child.kill()
    await new Promise(resolve => child.exitCode !== null || child.signalCode !== null ? resolve() : child.once('exit', resolve))
    rmSync(home, { recursive: true, force: true, maxRetries: 5, retryDelay: 200 })
  }

  /** A page of this size; `before` is run before its own scripts. `problems` has what it complains of: exceptions, refused loads, requests that are no file. */
  const page = async (url, { width = 1440, height = 900, dark = false, before = '' } = {}) => {
    const { targetId } = await send('Target.createTarget', { url: 'about:blank' })
    const { sessionId } = await send('Target.attachToTarget', { targetId, flatten: true })
    const ask = (method, params) => send(method, params, sessionId)
    const problems = []
    const requests = []
    listeners.push(({ method, params, sessionId: from }) => {
      if (from !== sessionId) return
      if (method === 'Runtime.exceptionThrown') problems.push(params.exceptionDetails.exception?.description ?? params.exceptionDetails.text)
      if (method === 'Log.entryAdded' && params.entry.level === 'error') problems.push(params.entry.text)
      if (method === 'Network.requestWillBeSent') requests.push(params.request.url)
    })
    for (const domain of ['Page', 'Runtime', 'Log', 'Network', 'DOM']) await ask(`${domain}.enable`)
    const size = async (width, height) => ask('Emulation.setDeviceMetricsOverride', { width, height, deviceScaleFactor: 1, mobile: false })
    await size(width, height)
    const colours = async dark => ask('Emulation.setEmulatedMedia', { features: [{ name: 'prefers-color-scheme', value: dark ? 'dark' : 'light' }] })
    await colours(dark)
    /** The value of an expression, which may be a promise. */
    const evaluate = async expression => {
      const { result, exceptionDetails } = await ask('Runtime.evaluate', { expression, awaitPromise: true, returnByValue: true })
      if (exceptionDetails !== undefined) throw new Error(exceptionDetails.exception?.description ?? exceptionDetails.text)
      return result.value
    }
    /** Waits until an expression holds. */
    const until = async (expression, seconds = 30) => {
      for (const end = Date.now() + 1000 * seconds; Date.now() < end; await new Promise(resolve => setTimeout(resolve, 30))) if (await evaluate(expression)) return
      throw new Error(`not within ${seconds} s: ${expression}`)
    }
    /** Two frames, so that what was asked for is drawn. */
    const drawn = async () => evaluate('new Promise(done => requestAnimationFrame(() => requestAnimationFrame(() => done(true))))')
    const key = async (key, code = key, number = 0) => {
      const text = key.length === 1 ? { text: key } : key === 'Enter' ? { text: '\r' } : {}
      const numbers = { ArrowDown: 40, ArrowUp: 38, ArrowLeft: 37, ArrowRight: 39, PageDown: 34, PageUp: 33, Home: 36, End: 35, Enter: 13, Tab: 9, Escape: 27 }
      const of = { key, code, windowsVirtualKeyCode: numbers[key] ?? number, ...text }
      await ask('Input.dispatchKeyEvent', { type: 'keyDown', ...of })
      await ask('Input.dispatchKeyEvent', { type: 'keyUp', ...of })
      await drawn()
    }
    /** A click in the middle of an element. */
    const click = async selector => {
      const at = await evaluate(`(() => { const e = document.querySelector(${JSON.stringify(selector)}); e.scrollIntoViewIfNeeded(); const r = e.getBoundingClientRect(); return [r.x + r.width / 2, r.y + r.height / 2] })()`)
      for (const type of ['mousePressed', 'mouseReleased']) await ask('Input.dispatchMouseEvent', { type, x: at[0], y: at[1], button: 'left', clickCount: 1 })
      await drawn()
    }
    const chooseFile = async (selector, file) => {
      const { root } = await ask('DOM.getDocument')
      const { nodeId } = await ask('DOM.querySelector', { nodeId: root.nodeId, selector })
      await ask('DOM.setFileInputFiles', { nodeId, files: [file] })
    }
    const screenshot = async () => Buffer.from((await ask('Page.captureScreenshot', { format: 'png' })).data, 'base64')
    if (before !== '') await ask('Page.addScriptToEvaluateOnNewDocument', { source: before })
    await ask('Page.navigate', { url })
    await until("document.readyState === 'complete'")
    return { ask, evaluate, until, drawn, key, click, chooseFile, screenshot, size, colours, problems, requests, close: () => send('Target.closeTarget', { targetId }) }
  }
  return { page, close, version: async () => (await send('Browser.getVersion')).product }
}
