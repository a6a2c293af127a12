// Wairokabi for JavaScript: Yjs updates read, diffed, sorted and listed by the proved library, compiled for WebAssembly (web/wairokabi.wasm, made by tools/wasm).
// wairokabi.d.ts says what each call takes and gives.
import { open } from './core.js'

export { FIELDS, open, TYPES } from './core.js'
export { Refused, WORDS } from './refused.js'

/** The library, from the file or address of wairokabi.wasm. */
export const load = async (from = new URL('../../web/wairokabi.wasm', import.meta.url)) => {
  const url = new URL(from, import.meta.url)
  if (url.protocol === 'file:') {
    const { readFile } = await import('node:fs/promises')
    return open(await readFile(url))
  }
  const answer = await fetch(url)
  if (!answer.ok) throw new Error(`${url}: ${answer.status}`)
  return open(await answer.arrayBuffer())
}
