// Beside the command ./wairokabi, which links the archive for this machine: diffs, contents and summaries are the same bytes, and refusals the same words. Passed
// over where target/native has no archive (tools/native makes it).
import assert from 'node:assert/strict'
import { spawnSync } from 'node:child_process'
import { existsSync } from 'node:fs'
import { test } from 'node:test'
import { load, Refused } from '../index.js'
import { cases } from './stream.mjs'

const w = await load()
const root = new URL('../../../', import.meta.url)
const missing = existsSync(new URL('target/native/libwairokabi.a', root)) ? false : 'tools/native was not run'

const command = (...words) => {
  const { status, stdout, stderr } = spawnSync(new URL('wairokabi', root).pathname, words.map(String), { encoding: 'utf8', cwd: root.pathname })
  // of a refusal the message, without what was refused and without the place shown below it
  return status === 0 ? stdout.trim() : stderr.split('\n')[0].replace(/^wairokabi: (update: |vector: |summary: )?/, '')
}
const ours = call => {
  try {
    return Buffer.from(call()).toString('hex')
  } catch (e) {
    if (!(e instanceof Refused)) throw e
    return e.message
  }
}

test('diffs, summaries and refusals are those of the command', { skip: missing }, t => {
  const asked = [...cases()].filter(([operation, given]) => operation === 16 && given[5].length < 4000)
  let [count, refused] = [0, 0]
  for (let k = 0; k < asked.length; k += 61) {
    const [form, to, , , , update, vector] = asked[k][1]
    const [u, v] = [`hex:${update.toString('hex')}`, `hex:${vector.toString('hex')}`]
    const diff = ours(() => w.diff(form, update, vector, to))
    assert.equal(diff, command('diff', form, u, v, '--to', to))
    assert.equal(ours(() => w.writeSummary(form, update)), command('summary', form, u))
    count++
    refused += diff.startsWith('refused') ? 1 : 0
  }
  assert.ok(count > 100 && refused > 10)
  t.diagnostic(`${count} diffs and summaries, ${refused} of the diffs refused`)
})
