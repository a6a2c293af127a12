// report.cjs OUT DOCS: from OUT/native.tsv (several rounds, the best of each time) and OUT/yjs.tsv the measured part of DOCS/BENCHMARK.md, between its two marks, and DOCS/benchmark.svg. First all
// answers are held against each other: it stops where Yjs's part from ours.
'use strict'
const fs = require('fs')
const path = require('path')
const os = require('os')
const crypto = require('crypto')
const { execSync } = require('child_process')

const [, , out, docs] = process.argv
const lines = file => fs.readFileSync(path.join(out, file), 'utf8').trim().split('\n').map(l => l.split('\t'))
const list = new Map(lines('inputs/list').map(([name, blocks, ranges]) => [name, { blocks: Number(blocks), ranges: Number(ranges) }]))
const all = new Map()
for (const [input, work, side, time, answer] of [...lines('native.tsv'), ...lines('yjs.tsv')]) {
  const key = `${input} ${work}`
  if (!all.has(key)) all.set(key, { input, work })
  const before = all.get(key)[side]
  if (before !== undefined && before.answer !== answer) throw new Error(`${key}, ${side}: ${before.answer}, then ${answer}`)
  all.get(key)[side] = { time: Math.min(Number(time), before?.time ?? Infinity), answer }
}

// ---- answers

for (const { input, work, ours, yjs } of all.values()) {
  if (yjs === undefined) continue
  const [a, b, c] = ours.answer.split(' ')
  const expected = work.startsWith('sort') ? [b === '0' ? 'none' : 'some', c].join(' ') : ours.answer
  if (yjs.answer !== expected) throw new Error(`${input} ${work}: ${ours.answer} here, ${yjs.answer} in Yjs`)
}

// ---- words and numbers

const WORKS = {
  read1: 'read, form 1',
  read2: 'read, form 2',
  diff11: 'diff, 1 to 1',
  diff12: 'diff, 1 to 2',
  diff21: 'diff, 2 to 1',
  diff22: 'diff, 2 to 2',
  sort1: 'sort, form 1',
  sort2: 'sort, form 2'
}
const SIZES = [...list.keys()].filter(n => n.startsWith('size-')).map(n => Number(n.slice(5)))
const thousands = n => String(n).replace(/\B(?=(\d{3})+$)/g, ',')
const short = x => x >= 100 ? thousands(Math.round(x)) : x >= 10 ? x.toFixed(1) : x.toFixed(2)
const time = ns => ns >= 1e6 ? `${short(ns / 1e6)} ms` : ns >= 1e3 ? `${short(ns / 1e3)} µs` : `${short(ns)} ns`
const ratio = (a, b) => b === undefined || a === undefined ? '' : short(a.time / b.time)
const table = (head, rows) => [head, head.map((_, k) => k === 0 ? '---' : '--:'), ...rows].map(r => `| ${r.join(' | ')} |`).join('\n')
const at = (input, work) => all.get(`${input} ${work}`)

// One line a work: our time, per unit and in all, and how many times as long as the others'.
const compared = (rows, unit) => table(['', `ours, per ${unit}`, 'ours, whole', 'Rust, whole', 'Yjs, whole', 'ours / Rust', 'ours / Yjs', 'ours / memcpy'],
  rows.map(([name, r, n]) => [name, time(r.ours.time / n), time(r.ours.time), r.rust ? time(r.rust.time) : '', r.yjs ? time(r.yjs.time) : '',
    ratio(r.ours, r.rust), ratio(r.ours, r.yjs), ratio(r.ours, r.memcpy)]))
const works = input => Object.entries(WORKS).filter(([work]) => at(input, work) !== undefined).map(([work, name]) => [name, at(input, work), list.get(input).blocks])

const grown = table(['ns per block', '', ...SIZES.map(thousands)], Object.entries(WORKS).flatMap(([work, name]) =>
  [['ours', 'ours'], ['Rust', 'rust'], ['Yjs', 'yjs']].map(([side, key], k) =>
    [k === 0 ? name : '', side, ...SIZES.map(n => short(at(`size-${n}`, work)[key].time / n))])))

// What diff and sort take beyond the reading in them.
const beyond = table(['beyond reading, per block', 'ours', 'Rust', 'ours / Rust'], Object.entries(WORKS).filter(([work]) => !work.startsWith('read')).map(([work, name]) => {
  const [whole, reading] = [at('size-10000', work), at('size-10000', `read${work[4]}`)]
  const [a, b] = ['ours', 'rust'].map(side => (whole[side].time - reading[side].time) / 10000)
  return [name, time(a), time(b), short(a / b)]
}))

// Sorting by held ids, of which there are none, beside sorting by rule 28 against no vector: both take the same blocks.
const HELD = [
  ...SIZES.map(n => [`size-${n}`, `${thousands(n)} blocks`]),
  ['rich-10000', '10,000 blocks, with marks, maps, arrays and XML'],
  ['session', 'the editing session'],
  ['ring', '64 clients in a ring, none taken'],
  ['turns', 'one of 64 fronts ready, lowest client first'],
  ['falling-turns', 'the same, highest first'],
  ['behind', '63 wait for the last block of the lowest'],
  ['apart', '64 clients, none waits']
].flatMap(([input, name]) => ['1', '2'].filter(form => at(input, `held${form}`) !== undefined).map(form => {
  const [held, sort] = [at(input, `held${form}`), at(input, `sort${form}`)]
  return [`${name}, form ${form}`, time(held.ours.time / list.get(input).blocks), time(held.ours.time), time(sort.ours.time), ratio(held.ours, sort.ours)]
}))
const held = table(['', 'by held ids, per block', 'by held ids, whole', 'by rule 28, whole', 'by held ids / by rule 28'], HELD)

const WORST = [
  ['falling', 'read1', 'read: a million delete ranges, falling', 'range'],
  ['mixed', 'read1', 'read: a million, in no order', 'range'],
  ['rising', 'read1', 'read: a million, in order', 'range'],
  ['ring', 'sort1', 'sort: 64 clients in a ring, none taken', 'block'],
  ['turns', 'sort1', 'sort: one of 64 fronts ready, lowest client first', 'block'],
  ['falling-turns', 'sort1', 'sort: the same, highest first', 'block'],
  ['behind', 'sort1', 'sort: 63 wait for the last block of the lowest', 'block'],
  ['apart', 'sort1', 'sort: 64 clients, none waits', 'block'],
  ['held-rising', 'given1', 'sort by a million held ranges, in order', 'block'],
  ['held-falling', 'given1', 'the same, falling', 'block'],
  ['held-mixed', 'given1', 'the same, in no order', 'block'],
  ['size-100', 'lent1', 'read: 100 blocks, tables of 65,535 rows lent', 'block'],
  ['size-10000', 'lent1', 'read: 10,000 blocks, tables of 65,535 rows lent', 'block']
].map(([input, work, name]) => [name, at(input, work), list.get(input).blocks || list.get(input).ranges])
const COLUMNS = ['numbers', 'differences', 'bytes', 'texts'].flatMap(c => [['next', 'read'], ['write', 'written']].map(([work, done]) =>
  [`${c}, ${done}`, at(c, work), list.get(c).blocks]))

// ---- the machine

const says = command => {
  try {
    return execSync(command, { stdio: ['ignore', 'pipe', 'ignore'] }).toString().trim()
  } catch (e) {
    return 'not known'
  }
}
const version = name => require(`/usr/share/nodejs/${name}/package.json`).version
const sha = bytes => crypto.createHash('sha256').update(bytes).digest('hex').slice(0, 16)
const inputs = fs.readdirSync(path.join(out, 'inputs')).sort().map(f => fs.readFileSync(path.join(out, 'inputs', f)))
const machine = table(['', ''], [
  ['date', new Date().toISOString().slice(0, 16).replace('T', ' ') + ' UTC'],
  ['machine', `${os.cpus()[0].model}, ${os.cpus().length} cores, ${Math.round(os.totalmem() / 2 ** 30)} GiB, ${os.arch()}, Linux ${os.release()}${says('systemd-detect-virt') === 'none' ? '' : ' (virtual)'}`],
  ['ours', `commit ${says('git rev-parse --short HEAD')}${says('git status --porcelain crates') === '' ? '' : ' with changes'}, target/native/libwairokabi.a, sha256 ${sha(fs.readFileSync('target/native/libwairokabi.a'))}..`],
  ['Rust', `yrs 0.28.0's text with stand-ins (bench/yrs), ${says('rustc --version')}, opt-level 3`],
  ['Yjs', `${version('yjs')}, lib0 ${version('lib0')}, node ${process.version}`],
  ['driver', `${says(`${process.env.CC || 'cc'} --version`).split('\n')[0]}, -O2`],
  ['inputs', `${inputs.length} files, sha256 ${sha(Buffer.concat(inputs))}..`]
]).replace('| --- | --: |', '| --- | --- |')

const session = list.get('session')
const messages = list.get('messages').blocks
const measured = `
${machine}

### 10,000 blocks

${thousands(fs.statSync(path.join(out, 'inputs/size-10000.1')).size)} bytes in form 1, ${thousands(fs.statSync(path.join(out, 'inputs/size-10000.2')).size)} in form 2, ${thousands(list.get('size-10000').ranges)} delete ranges.

${compared(works('size-10000'), 'block')}

${beyond}

### An editing session

${thousands(session.blocks)} blocks, ${thousands(session.ranges)} delete ranges; ${thousands(fs.statSync(path.join(out, 'inputs/session.1')).size)} bytes in form 1, ${thousands(fs.statSync(path.join(out, 'inputs/session.2')).size)} in form 2. The last line reads the session's ${thousands(messages)} messages, one key each, by themselves (64 rows and 64 ranges lent): its unit is a message.

${compared([...works('session'), ['read, each message', at('messages', 'each1'), messages]], 'block')}

### Marks, maps, arrays and XML

${['rich-1000', 'rich-10000'].map(input => `${thousands(list.get(input).blocks)} blocks: ${thousands(fs.statSync(path.join(out, `inputs/${input}.1`)).size)} bytes in form 1, ${thousands(fs.statSync(path.join(out, `inputs/${input}.2`)).size)} in form 2. The Rust's values and JSON are stand-ins.\n\n${compared(works(input), 'block')}`).join('\n\n')}

### As the size grows

![Cost per block as the size grows](benchmark.svg)

${grown}

### Sorting by held ids

${held}

### Worst cases

The unit is a block, or a delete range where there are no blocks. Where there are held ranges, each block hangs on one of a million; memcpy copies these.

${compared(WORST, 'unit')}

### Columns

100,000 values each, half of the runs of one value.

${compared(COLUMNS, 'value')}
`

const [BEGIN, END] = ['<!-- measured by bench/run: begin -->', '<!-- measured by bench/run: end -->']
const file = path.join(docs, 'BENCHMARK.md')
const old = fs.existsSync(file) ? fs.readFileSync(file, 'utf8') : `${BEGIN}\n${END}\n`
const [from, to] = [old.indexOf(BEGIN), old.indexOf(END)]
if (from < 0 || to < from) throw new Error(`${file} has no marks for what is measured`)
fs.writeFileSync(file, old.slice(0, from) + BEGIN + '\n' + measured + '\n' + old.slice(to))

// ---- the plot: six panels, both axes by powers of ten

const SIDES = [['ours', 'ours', '#c2410c'], ['Rust (yrs\'s text)', 'rust', '#1d4ed8'], ['Yjs in node', 'yjs', '#15803d'], ['memcpy', 'memcpy', '#6b7280']]
const PANELS = ['read1', 'read2', 'sort1', 'diff11', 'diff12', 'diff22']
const [W, H, LEFT, TOP, GAP_X, GAP_Y] = [250, 200, 56, 62, 56, 62]
const cost = (work, key) => SIZES.map(n => [n, at(`size-${n}`, work)[key].time / n])
const costs = PANELS.flatMap(work => SIDES.flatMap(([, key]) => cost(work, key).map(([, c]) => c)))
const [low, high] = [Math.floor(Math.log10(Math.min(...costs))), Math.ceil(Math.log10(Math.max(...costs)))]
const X = n => W * (Math.log10(n) - 2) / (Math.log10(65535) - 2)
const Yp = c => H * (high - Math.log10(c)) / (high - low)
const round = x => x.toFixed(1)
const word = (x, y, text, more = '') => `<text x="${round(x)}" y="${round(y)}" ${more}>${text}</text>`
const panel = (work, k) => {
  const parts = []
  for (let p = low; p <= high; p++) {
    parts.push(`<path d="M0 ${round(Yp(10 ** p))}H${W}" stroke="#e5e7eb"/>`)
    parts.push(word(-6, Yp(10 ** p) + 4, 10 ** p < 1 ? String(10 ** p) : thousands(10 ** p), 'text-anchor="end"'))
  }
  for (const [n, name] of [[100, '100'], [1000, '1,000'], [10000, '10,000'], [65535, '65,535']]) {
    parts.push(`<path d="M${round(X(n))} 0V${H}" stroke="#e5e7eb"/>`, word(X(n), H + 16, name, 'text-anchor="middle"'))
  }
  for (const [, key, colour] of SIDES) {
    const points = cost(work, key).map(([n, c]) => [round(X(n)), round(Yp(c))])
    parts.push(`<polyline points="${points.map(p => p.join()).join(' ')}" fill="none" stroke="${colour}" stroke-width="1.8"${key === 'memcpy' ? ' stroke-dasharray="4 3"' : ''}/>`)
    parts.push(...points.map(([x, y]) => `<circle cx="${x}" cy="${y}" r="2.4" fill="${colour}"/>`))
  }
  parts.push(word(W / 2, -8, WORKS[work], 'text-anchor="middle" font-weight="bold"'))
  return `<g transform="translate(${LEFT + (k % 3) * (W + GAP_X)} ${TOP + Math.floor(k / 3) * (H + GAP_Y)})">${parts.join('\n')}</g>`
}
const [width, height] = [LEFT + 3 * (W + GAP_X) - 20, TOP + 2 * (H + GAP_Y) - 8]
const legend = SIDES.map(([name, key, colour], k) => `<path d="M${LEFT + 390 + k * 130} 20h24" stroke="${colour}" stroke-width="2.4"${key === 'memcpy' ? ' stroke-dasharray="4 3"' : ''}/>${word(LEFT + 420 + k * 130, 24, name)}`)
fs.writeFileSync(path.join(docs, 'benchmark.svg'), `<svg xmlns="http://www.w3.org/2000/svg" width="${width}" height="${height}" viewBox="0 0 ${width} ${height}" font-family="sans-serif" font-size="11">
<rect width="${width}" height="${height}" fill="#fff"/>
${word(LEFT, 24, 'Nanoseconds per block, by the number of blocks', 'font-size="13" font-weight="bold"')}
${legend.join('\n')}
${PANELS.map(panel).join('\n')}
</svg>
`)
console.log(measured)
