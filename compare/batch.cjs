// batch.cjs OUT COUNT: compares batch after batch until COUNT updates were compared, with the programs OUT/ours, OUT/yrs-checked and OUT/yrs-release. A finished
// batch is a line of OUT/done and is not done again. Where something disagrees and is in no class of known.cjs, it ends with 1: OUT/unknown.txt has it.
'use strict'
const fs = require('fs')
const path = require('path')
const { spawnSync } = require('child_process')
const { make } = require('./updates.cjs')
const { missing } = require('./known.cjs')
const j = require('./judge.cjs')

const [, , out, wanted] = process.argv
const at = name => path.join(out, name)
const without = missing(fs.readFileSync(path.join(__dirname, '../docs/DIFFERENCES.md'), 'utf8'))
if (without.length > 0) {
  console.log(`compare: classes whose row is not in docs/DIFFERENCES.md:\n${without.join('\n')}`)
  process.exit(1)
}

// ---- asking: a request is [what, form or column, form to write, bytes, vector]

const sized = bytes => {
  const b = Buffer.alloc(4)
  b.writeUInt32LE(bytes.length)
  return [b, Buffer.from(bytes)]
}
const written = requests => fs.writeFileSync(at('requests'), Buffer.concat(requests.flatMap(([op, form, to, bytes, vector = []]) => [Buffer.from([op, form, to, 0]), ...sized(bytes), ...sized(vector)])))
const lines = run => run.stdout.toString().split('\n').slice(0, -1)
const askOurs = requests => {
  written(requests)
  const run = spawnSync(at('ours'), [at('requests')], { maxBuffer: 2 ** 30, stdio: ['ignore', 'pipe', 'inherit'] })
  const got = lines(run)
  if (run.status !== 0 || got.length !== requests.length) throw new Error(`ours answered ${got.length} of ${requests.length}, status ${run.status}, signal ${run.signal}`)
  return got
}
// With 700 MB of memory: a request that it dies of is answered `died`, and it goes on with the next.
const askYrs = (build, requests) => {
  written(requests)
  const got = []
  while (got.length < requests.length) {
    const run = spawnSync('bash', ['-c', 'ulimit -c 0; ulimit -v 700000; exec "$@"', 'yrs', at(`yrs-${build}`), at('requests'), String(got.length)], { maxBuffer: 2 ** 30, stdio: ['ignore', 'pipe', 'ignore'] })
    got.push(...lines(run))
    if (got.length < requests.length) {
      if (run.status === 0) throw new Error(`yrs-${build} answered ${got.length} of ${requests.length}`)
      got.push('died')
    }
  }
  return got
}

// ---- one batch

const builds = [[true, 'checked'], [false, 'release']]
const compared = batch => {
  const { updates, columns, vectors } = make(batch)
  const judge = j.begin()
  const { count } = judge
  // Reading. What is known of an update beside its bytes is the model's.
  const all = updates.map(({ update, ...x }) => {
    const r = j.readUpdate(x.form, update)
    const twice = r.number === 0 && new Set(r.deleteClients).size !== r.deleteClients.length
    return { r, x: { ...x, bytes: update, number: r.number, place: r.place, what: r.what, value: r.value, column: r.column, masked: r.masked, longType: r.longType, twice } }
  })
  const reads = all.map(({ x }) => [1, x.form, 0, x.bytes])
  const ours = askOurs(reads)
  const yrs = builds.map(([, name]) => askYrs(name, reads))
  const [readable, refused] = [[], []]
  all.forEach(({ x, r }, k) => {
    count('updates', x.form, x.made)
    count('how', x.how, x.form)
    count('number', r.number)
    judge.ours('read', x, ours[k], j.readLine(x.bytes, r), r)
    judge.readYjs(x, ours[k])
    builds.forEach(([checked], n) => judge.readYrs(x, checked, ours[k], yrs[n][k]))
    if (r.number === 0) readable.push({ ...x, emptyRange: r.emptyRange })
    else if (k % 20 === 0) refused.push(x)
  })
  // Diffs and sorts; of updates that are refused too, now and then, to see that the refusal is the same.
  const asked = [...readable, ...refused]
  const diffs = asked.map(x => [2, x.form, x.to, x.bytes, x.vector])
  const ourDiffs = askOurs(diffs)
  const yrsDiffs = builds.map(([, name]) => askYrs(name, diffs))
  const manyKeys = []
  const diffNumbers = asked.map((x, k) => {
    const r = j.diff(x.form, x.to, x.bytes, x.vector)
    manyKeys.push(r.what === 'keys written')
    judge.ours('diff', x, ourDiffs[k], j.diffLine(r), r)
    const number = j.numberOf(ourDiffs[k].split('|')[0])
    if (x.number === 0) {
      count('diffs', `${x.form} to ${x.to}`, number)
      judge.diffYjs(x, ourDiffs[k], r)
    }
    return number
  })
  builds.forEach(([checked, name], n) => {
    const both = asked.map((x, k) => k).filter(k => diffNumbers[k] === 0 && yrsDiffs[n][k].startsWith('0|'))
    const again = askYrs(name, both.flatMap(k => [ourDiffs, yrsDiffs[n]].map(all => [1, asked[k].to, 0, j.bytesOf(all[k].split('|')[1])])))
    asked.forEach((x, k) => {
      if (![0, 9, 13, 19].includes(diffNumbers[k]) && !(x.number === 0 && manyKeys[k])) return
      const of = both.indexOf(k)
      judge.diffYrs(x, checked, ourDiffs[k], yrsDiffs[n][k], of < 0 ? null : again.slice(2 * of, 2 * of + 2))
    })
  })
  const sorts = asked.map(x => [3, x.form, 28, x.bytes, x.vector])
  const ourSorts = askOurs(sorts)
  // By rule 13, that of Yjs.
  const ourSorts13 = askOurs(asked.map(x => [3, x.form, 13, x.bytes, x.vector]))
  const yrsSorts = builds.map(([, name]) => askYrs(name, sorts))
  asked.forEach((x, k) => {
    const [r, r13] = [28, 13].map(rule => j.sort(x.form, x.bytes, x.vector, { rule }))
    judge.ours('sort', x, ourSorts[k], j.sortLine(r), r)
    judge.ours('sort', x, ourSorts13[k], j.sortLine(r13), r13)
    if (x.number !== 0) return
    count('sorts', x.form, x.doc !== undefined ? 'edited' : 'as garbage', r.number)
    judge.sortYjs(x, ourSorts13[k], r13, r.across)
    builds.forEach(([checked], n) => judge.sortYrs(x, checked, ourSorts[k], r, yrsSorts[n][k]))
  })
  // Columns.
  const columnReads = columns.map(([kind, bytes]) => [4, kind, 0, bytes])
  const ourColumns = askOurs(columnReads)
  const yrsColumns = builds.map(([, name]) => askYrs(name, columnReads))
  columns.forEach(([kind, bytes], k) => {
    const r = j.drawn(kind, bytes)
    const x = { kind, bytes, number: r.number, place: r.place, what: r.what, column: true }
    count('columns', ['numbers', 'differences', 'bytes', 'texts'][kind])
    judge.ours('column', x, ourColumns[k], j.columnLine(kind, r), r)
    const lib0 = j.lib0Column(kind, bytes)
    judge.column('lib0', 'lib0', x, ourColumns[k], lib0.values, lib0.end)
    builds.forEach(([checked, name], n) => {
      const [values, end] = yrsColumns[n][k] === 'died' ? ['', 'died'] : yrsColumns[n][k].split('|')
      judge.column('yrs columns', `yrs ${name}`, { ...x, checked }, ourColumns[k], j.list(values), end)
    })
  })
  // State vectors.
  const ourVectors = askOurs(vectors.map(bytes => [5, 0, 0, bytes]))
  vectors.forEach((bytes, k) => {
    const r = j.readVector(bytes)
    judge.ours('vector', { bytes }, ourVectors[k], j.vectorLine(r), r)
    judge.vectorYjs({ bytes }, ourVectors[k])
  })
  return judge
}

// ---- batches

const done = fs.existsSync(at('done')) ? fs.readFileSync(at('done'), 'utf8').trim().split('\n').filter(l => l !== '').map(l => JSON.parse(l)) : []
const updatesOf = counts => Object.entries(counts).filter(([key]) => key.startsWith('updates|')).reduce((sum, [, n]) => sum + n, 0)
let total = done.reduce((sum, d) => sum + updatesOf(d.counts), 0)
if (done.length > 0) console.log(`compare: ${total} updates of ${done.length} batches are done already`)
const shown = x => JSON.stringify({ ...x, bytes: Buffer.from(x.bytes).toString('hex'), vector: x.vector && Buffer.from(x.vector).toString('hex') }, (k, v) => typeof v === 'bigint' ? `${v}` : v)
let told = j.told()
const toldNumbers = text => text.split('|').map(part => Object.fromEntries([...part.matchAll(/(\S[a-z ]*?) (\d+)/g)].map(([, what, n]) => [what, Number(n)])))
for (let batch = done.length; total < Number(wanted); batch++) {
  const since = Date.now()
  const { counts, unknown } = compared(batch)
  if (unknown.length > 0) {
    unknown.sort((a, b) => a.bytes.length - b.bytes.length)
    fs.writeFileSync(at('unknown.txt'), unknown.map(x => `${shown(x)}\n`).join(''))
    console.log(`compare: batch ${batch}: ${unknown.length} disagreements in no class, all in ${at('unknown.txt')}; the smallest:\n${shown(unknown[0])}`)
    process.exit(1)
  }
  // What tools/cases says of Yjs's diffs and sorts, since the last batch.
  const now = j.told()
  const [before, after] = [toldNumbers(told), toldNumbers(now)]
  ;['diffs', 'sorts'].forEach((work, k) => Object.entries(after[k]).forEach(([what, n]) => {
    if (n > before[k][what]) counts[`Yjs ${work}|${what}`] = n - before[k][what]
  }))
  told = now
  fs.appendFileSync(at('done'), JSON.stringify({ batch, seconds: (Date.now() - since) / 1000, counts }) + '\n')
  total += updatesOf(counts)
  if (batch % 10 === 9) console.log(`compare: ${total} updates`)
}
console.log(`compare: ${total} updates compared, no disagreement that is not in docs/DIFFERENCES.md`)
