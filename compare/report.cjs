// report.cjs OUT DOCS: from the batches of OUT/done the counted part of DOCS/COMPARISON.md, between its two marks.
'use strict'
const fs = require('fs')
const os = require('os')
const path = require('path')
const crypto = require('crypto')
const { execFileSync } = require('child_process')
const known = require('./known.cjs')

const [, , out, docs] = process.argv
const batches = fs.readFileSync(path.join(out, 'done'), 'utf8').trim().split('\n').map(l => JSON.parse(l))
const counts = new Map()
for (const b of batches) for (const [key, n] of Object.entries(b.counts)) counts.set(key, (counts.get(key) ?? 0) + n)
// The sum of all counts whose words begin so; `null` is any word.
const sum = (...words) => [...counts].filter(([key]) => words.every((w, k) => w === null || key.split('|')[k] === String(w))).reduce((n, [, m]) => n + m, 0)
const wordsAt = (place, ...words) => [...new Set([...counts.keys()].map(key => key.split('|')).filter(all => words.every((w, k) => w === null || all[k] === String(w))).map(all => all[place]))]
const thousands = n => String(n).replace(/\B(?=(\d{3})+$)/g, ',')
const cell = x => typeof x === 'number' ? thousands(x) : x
const table = (head, rows, left = 1) => [head, head.map((_, k) => k < left ? '---' : '--:'), ...rows].map(r => `| ${r.map(cell).join(' | ')} |`).join('\n')

// ---- versions

const version = name => JSON.parse(fs.readFileSync(`/usr/share/nodejs/${name}/package.json`, 'utf8')).version
const told = (...command) => execFileSync(command[0], command.slice(1)).toString().trim()
const sha = file => crypto.createHash('sha256').update(fs.readFileSync(file)).digest('hex')
const [archive, commit, changed] = fs.readFileSync(path.join(out, 'library'), 'utf8').trim().split('\n')
const versions = [
  ['date', `${new Date().toISOString().slice(0, 16).replace('T', ' ')} UTC`],
  ['machine', `${os.cpus()[0].model}, ${os.cpus().length} cores, ${os.arch()}, ${os.type()} ${os.release()}`],
  ['library', `sha256 ${archive}; commit ${commit}${changed === '0' ? '' : `, with ${changed} files under crates/*/src and crates/*/specs that are newer`}`],
  ['Yjs', `${version('yjs')}, lib0 ${version('lib0')} (Debian), node ${process.version}`],
  ['yrs', `0.28.0's text, ${told('rustc', '--version')}; encoding/read.rs ${sha('compare/yrs/encoding/read.rs').slice(0, 16)}, updates/decoder.rs ${sha('compare/yrs/updates/decoder.rs').slice(0, 16)} (sha256)`],
  ['batches', `0 to ${batches.length - 1}, ${thousands(Math.round(batches.reduce((n, b) => n + b.seconds, 0)))} seconds`]
]

// ---- tables

const MADE = ['by Yjs', 'put together', 'damaged']
const updates = table(['updates', 'form 1', 'form 2', 'together'], [...MADE.map(made => [made, sum('updates', 1, made), sum('updates', 2, made), sum('updates', null, made)]),
  ['**all**', sum('updates', 1), sum('updates', 2), sum('updates')]])
const how = wordsAt(1, 'how').map(h => `${h} ${thousands(sum('how', h))}`).join(', ')
const refusals = wordsAt(1, 'number').sort((a, b) => a - b).map(n => `${n}: ${thousands(sum('number', n))}`).join(', ')

const SIDES = ['Yjs', 'yrs checked', 'yrs release']
const ONLY = ['read by Yjs only', 'read by Rust only']
const reading = table(['', '', 'read by both', 'refused by both', 'ours only', 'the other only', 'panic', 'not finished'], SIDES.flatMap(side => [1, 2].flatMap(form => MADE.map((made, k) => {
  const n = (...what) => what.reduce((all, w) => all + sum('read', side, form, made, w), 0)
  return [form === 1 && k === 0 ? side : '', `form ${form}, ${made}`, n('read by both'), n('refused by both'), n('read by ours only'), n(...ONLY), n('panic'), n('not finished by Yjs', 'no memory')]
}))), 2)
const equal = table(['', 'Yjs (columns: lib0)', 'yrs checked', 'yrs release'], [
  ['records and deleted ids of a reading', ...SIDES.map(s => sum('same', s, 'read'))],
  ['diffs, read again', sum('Yjs diffs', 'ordered') + sum('Yjs diffs', 'respelt'), ...SIDES.slice(1).map(s => sum('same', s, 'diff'))],
  ['sorts: division and reaches', ['equal', 'across', 'edited', 'edited across'].reduce((n, what) => n + sum('Yjs sorts', what), 0), ...SIDES.slice(1).map(s => sum('same', s, 'sort'))],
  ['columns, to their end', sum('same', 'lib0', 'column'), ...SIDES.slice(1).map(s => sum('same', s, 'column'))],
  ['state vectors', sum('vector', 'Yjs', 'compared'), '', '']
])
const asked = table(['asked', 'how many'], [
  ['readings', sum('model', 'read')],
  ...wordsAt(1, 'diffs').sort().map(pair => [`diffs, form ${pair}`, sum('diffs', pair)]),
  ['sorts', sum('sorts')],
  ['sorts against a Yjs document that was edited into the state', sum('sorts', null, 'edited')],
  ['sorts outside the domain for the Rust: a gap, or blocks that begin above the reach', sum('sort', 'yrs release', 'a gap: outside the domain')],
  ...wordsAt(1, 'columns').sort().map(kind => [`columns of ${kind}`, sum('columns', kind)]),
  ['state vectors', sum('model', 'vector')]
])

// The model's works; a diff or a sort of an update that is refused has the update's place.
const WORKS = { read: 'readings', diff: 'diffs', sort: 'sorts', column: 'columns', vector: 'state vectors' }
const places = table(['refusals, number and place', 'at 0', 'elsewhere', 'together'], [
  ...Object.entries(WORKS).map(([work, name]) => [name, sum('places', work, 'at 0'), sum('places', work, 'elsewhere'), sum('places', work)]),
  ['**all**', sum('places', null, 'at 0'), sum('places', null, 'elsewhere'), sum('places')]
])

const classes = []
for (const side of wordsAt(1, 'known')) {
  for (const name of wordsAt(2, 'known', side)) {
    const by = wordsAt(3, 'known', side, name).map(work => `${side.startsWith('yrs') ? `${work.slice(4)} ` : ''}${thousands(sum('known', side, name, work))}`)
    classes.push([side, name, known.rowOf(side, name), by.join(', ')])
  }
}
for (const [side, all] of Object.entries(known.counted)) {
  for (const [key, [name, row]] of Object.entries(all)) if (sum(side, key) > 0) classes.push([side, name, row, thousands(sum(side, key))])
}
const order = ['Yjs', 'Yjs diffs', 'Yjs sorts', 'lib0', 'yrs', 'yrs diffs', 'yrs sorts', 'yrs columns']
classes.sort((a, b) => order.indexOf(a[0]) - order.indexOf(b[0]) || (a[1] < b[1] ? -1 : 1))
const disagreements = table(['against', 'class', 'row of DIFFERENCES.md', 'how many'], classes, 4)

const written = `
${table(['', ''], versions, 2)}

Every answer of the library, ${thousands(sum('model'))} in all, refusals too, was first held against a model of documents 01 and 02 (tools/cases): all are equal. ${thousands(sum('places'))} of them are refusals, and these have the model's place too (W-201):

${places}

${updates}

Made by: ${how}. Numbers that reading gives: ${refusals}.

${asked}

### Equal

${equal}

### Reading, by outcome

${reading}

### Known disagreements

${disagreements}
`
const file = path.join(docs, 'COMPARISON.md')
const [BEGIN, END] = ['<!-- counted by compare/run: begin -->', '<!-- counted by compare/run: end -->']
const before = fs.readFileSync(file, 'utf8')
if (!before.includes(BEGIN) || !before.includes(END)) throw new Error(`${file} has no marks`)
fs.writeFileSync(file, `${before.split(BEGIN)[0]}${BEGIN}\n${written}\n${END}${before.split(END)[1]}`)
console.log(`compare: ${file} has the counts of ${thousands(sum('updates'))} updates`)
