// Holds the binding to include/wairokabi.h: header.js is what the header declares; fields lie where a C compiler puts them (CC, else cc; passed over where there is
// none); the words of refusals and the limits are the header's.
import assert from 'node:assert/strict'
import { execFileSync, spawnSync } from 'node:child_process'
import { mkdtempSync, readFileSync, rmSync, writeFileSync } from 'node:fs'
import { tmpdir } from 'node:os'
import { join } from 'node:path'
import { test } from 'node:test'
import { HEADER } from '../header.js'
import { calls, constants, structs } from '../layout.js'
import { WORDS } from '../refused.js'

const root = new URL('../../../', import.meta.url)
const header = readFileSync(new URL('include/wairokabi.h', root), 'utf8')
const bare = text => text.split('\n').map(line => line.replace(/\/\/.*/, '').trim()).filter(line => !line.startsWith('#')).join(' ').replace(/\s+/g, ' ').trim()

test('header.js is what the header declares', () => {
  const declared = bare(header).replace(/^extern "C" \{ /, '').replace(/ \}$/, '')
  assert.equal(bare(HEADER), declared)
  assert.ok(Object.keys(structs()).length > 20 && Object.keys(calls()).length > 20)
  assert.deepEqual(Object.keys(structs()).length, [...header.matchAll(/^typedef struct /gm)].length)
  assert.deepEqual(Object.keys(calls()), [...header.matchAll(/^wairokabi_\w+ wairokabi_(\w+)\(/gm)].map(([, name]) => name))
})

test("a block's row takes the bytes that the header says", () => {
  assert.equal(structs().block.size, Number(header.match(/A row takes (\d+) bytes/)[1]))
})

const cc = process.env.CC ?? 'cc'
test('fields lie where a C compiler puts them', { skip: spawnSync(cc, ['--version']).error !== undefined && `no ${cc}` }, () => {
  // the path to a field, as C goes there
  const path = (declared, name) => {
    for (const [, type, field] of declared.get(name).matchAll(/(\w+) (\w+);/g)) {
      if (!declared.has(type)) paths.push([field, field])
      else {
        const outer = paths
        paths = []
        path(declared, type)
        outer.push(...paths.map(([flat, c]) => [flat === 'count' ? field : `${field}_${flat}`, `${field}.${c}`]))
        paths = outer
      }
    }
  }
  let paths = []
  const declared = new Map([...bare(header).matchAll(/typedef struct (\w+) \{([^}]*)\}/g)].map(([, name, body]) => [name, body]))
  const lines = []
  for (const name of declared.keys()) {
    paths = []
    path(declared, name)
    lines.push(`printf("${name} %zu\\n", sizeof(${name}));`)
    for (const [flat, c] of paths) lines.push(`printf("${name} ${flat} %zu\\n", offsetof(${name}, ${c}));`)
  }
  const work = mkdtempSync(join(tmpdir(), 'wairokabi-'))
  try {
    writeFileSync(join(work, 'places.c'), `#include <stdio.h>\n#include "wairokabi.h"\nint main(void) {\n${lines.join('\n')}\n}\n`)
    execFileSync(cc, ['-I', new URL('include', root).pathname, join(work, 'places.c'), '-o', join(work, 'places')])
    const theirs = execFileSync(join(work, 'places'), { encoding: 'utf8' }).trim().split('\n')
    const ours = Object.entries(structs()).flatMap(([name, { size, fields }]) =>
      [`wairokabi_${name} ${size}`, ...[...fields].map(([field, { at }]) => `wairokabi_${name} ${field} ${at}`)])
    assert.deepEqual(ours, theirs)
  } finally {
    rmSync(work, { recursive: true })
  }
})

test('ids that stand flat in a row are the same fields', () => {
  const flat = `typedef struct wairokabi_units { uint64_t count; } wairokabi_units;
    typedef struct wairokabi_block { uint64_t client; uint64_t left_client; wairokabi_units length; uint32_t left_clock; bool has_left; uint16_t type_number; } wairokabi_block;`
  const { size, fields } = structs(flat).block
  const places = [...fields].map(([name, { at }]) => `${name} ${at}`)
  assert.deepEqual([size, places], [32, ['client 0', 'left_client 8', 'length 16', 'left_clock 24', 'has_left 28', 'type_number 30']])
  for (const field of ['client', 'left_client', 'length', 'left_clock', 'has_left', 'type_number']) assert.ok(structs().block.fields.has(field))
})

test('refusals have the words of the header', () => {
  const theirs = [...header.matchAll(/^\/\/ +(\d+) {2}(.*)$/gm)].filter(([, number]) => number !== '0').map(([, number, words]) => [number, words])
  assert.deepEqual(Object.entries(WORDS), theirs)
})

test('limits and kinds are those of the header', () => {
  const ours = Object.entries(constants())
  assert.deepEqual(ours, [...header.matchAll(/^#define WAIROKABI_(\w+) (\d+)$/gm)].map(([, name, value]) => [name, Number(value)]))
  const kinds = ours.filter(([name]) => !name.startsWith('MAX_')).map(([, value]) => value)
  assert.deepEqual(kinds, kinds.map((_, n) => n + 1))
})
