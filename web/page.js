// The page: an update is given, the library answers, and the answers are shown beside the bytes. What is answered is the library's; what is drawn is the page's.
'use strict'

// ---- what is chosen

/** Chooses a block, a byte, a part of the file, or several of them, and shows them in each view. */
const choose = ({ block = null, byte = null, part = null }) => {
  Object.assign(now, { block, byte, part })
  drawBlock()
  drawByte()
  drawDraws()
  for (const row of $('columns').querySelectorAll('tbody tr')) row.classList.toggle('chosen', row.dataset.name === part?.name)
  if (block === null) $('blocks').removeAttribute('aria-activedescendant')
  else $('blocks').setAttribute('aria-activedescendant', `block-${block}`)
  if (block === null || now.tab !== 'blocks') blockRows.redraw()
  else blockRows.show(block)
  const place = byte ?? firstByte(block)
  if (place === null) hexRows.redraw()
  else showByte(place)
}

/** The first byte that is lit for a block, or null. */
const firstByte = block => {
  const of = block === null ? null : now.read.blocks[block]
  const part = of === null ? undefined : [of.part, of.mark, of.name, of.key].find(part => part !== null && part.bytes > 0)
  return part === undefined ? null : part.place
}

/** The block that draws a byte, or whose part has it, the chosen one if it does; for the same byte again, the next of them; the chosen one where none has it. */
const blockAt = (place, again) => {
  if (now.read === null) return now.block
  const found = partsAt(place).map(part => part.n)
  if (found.length === 0) {
    const draws = now.block !== null && linesAt(now.block, place).length > 0
    return draws && !again ? now.block : (draws ? drawerOf(place, now.block) : null) ?? drawerOf(place) ?? now.block
  }
  const at = found.indexOf(now.block)
  if (at === -1) return found[0]
  return again ? found[(at + 1) % found.length] : now.block
}
const goTo = place => choose({ byte: place, block: blockAt(place, place === now.byte), part: columnAt(place) })

/** The column that has a byte, or null. */
const columnAt = place => now.parts.find(({ role, from, to }) => role === 'column' && from <= place && place < to) ?? null

const TABS = ['blocks', 'ranges', 'sorting']
const showTab = name => {
  now.tab = name
  for (const tab of TABS) {
    $(`tab-${tab}`).setAttribute('aria-selected', String(tab === name))
    $(`tab-${tab}`).tabIndex = tab === name ? 0 : -1
    $(`pane-${tab}`).hidden = tab !== name
  }
  if (name === 'blocks') blockRows.fill()
  if (name === 'ranges') rangeRows.fill()
  drawSorting()
}

// ---- what is given

/** Reads the bytes in the form that is asked for, or in both, and shows all anew. */
const read = () => {
  const { bytes, asked } = now
  const [one, two] = [1, 2].map(form => asked === 'both' || asked === String(form) ? reading(form, bytes) : null)
  const found = one === null || two === null ? one ?? two : chosen(one, two, bytes)
  const other = one === null || two === null ? null : found === one ? two : one
  Object.assign(now, found, { other, parts: found.form === 2 ? columns.parts(bytes) : [], block: null, byte: null, part: null })
  const { blocks, ranges } = now.read ?? { blocks: [], ranges: [] }
  setPlaces(blocks)
  forgetTold()
  forgetColours()
  $('empty').hidden = true
  $('verdict').hidden = $('panes').hidden = false
  setWidths(blocks)
  $('tab-blocks').querySelector('.count').textContent = blocks.length.toLocaleString('en')
  $('tab-ranges').querySelector('.count').textContent = ranges.length.toLocaleString('en')
  blockRows.set(blocks.length)
  rangeRows.set(ranges.length)
  setHex()
  drawVerdict()
  drawColumns()
  showTab(now.read === null ? 'blocks' : now.tab)
  choose(blocks.length > 0 ? { block: 0 } : { byte: now.refused?.at ?? null })
  document.body.dataset.shown = String(Number(document.body.dataset.shown ?? 0) + 1)
}
const take = (name, bytes, { vector = '00', note = '' } = {}) => {
  Object.assign(now, { name, note, bytes, tab: 'blocks' })
  $('vector').value = vector
  read()
}
const askForm = form => {
  now.asked = form
  document.querySelector(`input[name=form][value="${form}"]`).checked = true
}
const setForm = form => {
  askForm(form)
  if (!$('panes').hidden) read()
}
const takeExample = example => {
  askForm('both')
  take(example.name, example.make(), example)
  const part = now.parts.find(({ role, name }) => role === 'column' && name === example.part)
  if (part !== undefined) choose({ part, byte: part.from, block: 0 })
}
const takeFile = async file => file !== undefined && take(file.name, new Uint8Array(await file.arrayBuffer()))
const takeText = ({ bytes, how }) => take(`pasted, in ${how}`, bytes)

// ---- the controls

/** Light, dark, or as the system has it. */
const THEMES = [['light dark', '◐', 'as the system has it'], ['light', '☀', 'light'], ['dark', '☾', 'dark']]
let theme = 0
const setTheme = n => {
  theme = n % THEMES.length
  const [scheme, look, words] = THEMES[theme]
  document.documentElement.style.colorScheme = scheme
  $('theme').textContent = look
  $('theme').setAttribute('aria-label', `Colours: ${words}`)
}

const listenBar = () => {
  $('file').addEventListener('change', async () => {
    await takeFile($('file').files[0])
    $('file').value = ''
  })
  $('paste').addEventListener('click', openPaste)
  $('march').addEventListener('click', () => takeExample(given.examples[0]))
  given.examples.slice(1).forEach(({ name }, n) => $('examples').append(new Option(name, String(n + 1))))
  $('examples').addEventListener('change', () => {
    if ($('examples').value !== '') takeExample(given.examples[Number($('examples').value)])
    $('examples').value = ''
  })
  $('form').addEventListener('change', e => setForm(e.target.value))
  $('theme').addEventListener('click', () => setTheme(theme + 1))
}

const listenTabs = () => {
  for (const tab of TABS) $(`tab-${tab}`).addEventListener('click', () => showTab(tab))
  document.querySelector('[role=tablist]').addEventListener('keydown', e => {
    const step = { ArrowLeft: -1, ArrowRight: 1 }[e.key]
    if (step === undefined) return
    showTab(TABS[(TABS.indexOf(now.tab) + step + TABS.length) % TABS.length])
    $(`tab-${now.tab}`).focus()
  })
  $('rule').addEventListener('change', drawSorting)
  $('vector').addEventListener('input', drawSorting)
}

const openPaste = () => {
  $('pasting').showModal()
  $('text').select()
  sayText()
}
const spelledNow = () => given.spelled($('text').value, document.querySelector('input[name=spelling]:checked').value)
const sayText = () => {
  const found = spelledNow()
  $('text-read').disabled = found === null
  if (found !== null) $('text-is').textContent = `${many(found.bytes.length, 'byte')}, spelled in ${found.how}`
  else $('text-is').textContent = $('text').value.trim() === '' ? '' : 'this is neither pairs of hex digits nor base64'
}
const listenPaste = () => {
  $('text').addEventListener('input', sayText)
  $('spelling').addEventListener('change', sayText)
  $('pasting').addEventListener('close', () => {
    const found = $('pasting').returnValue === 'read' ? spelledNow() : null
    $('pasting').returnValue = ''
    if (found !== null) takeText(found)
  })
  document.addEventListener('paste', e => {
    if ($('pasting').open || e.target.matches?.('input, textarea')) return
    const [file] = e.clipboardData.files
    const found = given.spelled(e.clipboardData.getData('text'))
    if (file !== undefined) takeFile(file)
    else if (found !== null) takeText(found)
  })
}

const listenDrop = () => {
  let over = 0
  const enter = step => {
    over = step === 0 ? 0 : over + step
    $('drop').hidden = over <= 0
  }
  addEventListener('dragenter', () => enter(1))
  addEventListener('dragleave', () => enter(-1))
  addEventListener('dragover', e => e.preventDefault())
  addEventListener('drop', e => {
    e.preventDefault()
    enter(0)
    takeFile(e.dataTransfer.files[0])
  })
}

const listenBlocks = () => {
  $('blocks').addEventListener('click', e => {
    const row = e.target.closest('.body .row')
    if (row !== null) choose({ block: Number(row.dataset.n) })
  })
  $('blocks').addEventListener('keydown', e => {
    if (e.key === 'Enter' && now.block !== null) {
      choose({ block: now.block, byte: firstByte(now.block) })
      $('bytes').focus()
    }
    const to = blockRows.moved(e.key, now.block ?? -1)
    if (to === null) return
    e.preventDefault()
    choose({ block: to })
  })
}

const listenBytes = () => {
  $('bytes').addEventListener('click', e => {
    const place = byteUnder(e.clientX, e.clientY)
    if (place !== null) goTo(place)
  })
  $('bytes').addEventListener('pointermove', e => drawByte(byteUnder(e.clientX, e.clientY) ?? now.byte))
  $('bytes').addEventListener('pointerleave', () => drawByte())
  $('bytes').addEventListener('keydown', e => {
    const [at, last, page] = [now.byte ?? 0, now.bytes.length - 1, hexRows.page() * perRow]
    if (e.key === 'Enter') {
      showTab('blocks')
      choose({ byte: at, block: blockAt(at, false) })
      $('blocks').focus()
    }
    const steps = { ArrowLeft: -1, ArrowRight: 1, ArrowUp: -perRow, ArrowDown: perRow, PageUp: -page, PageDown: page, Home: -at, End: last - at }
    if (steps[e.key] === undefined || last < 0) return
    e.preventDefault()
    const to = now.byte === null ? 0 : Math.min(Math.max(at + steps[e.key], 0), last)
    if (to !== now.byte) goTo(to)
  })
  let width = 0
  new ResizeObserver(() => {
    if ($('panes').hidden || $('bytes').clientWidth === width) return
    width = $('bytes').clientWidth
    setHex()
    if (now.byte !== null) showByte(now.byte)
  }).observe($('bytes'))
  addEventListener('resize', fitPanes)
}

const KEYS = {
  o: () => $('file').click(),
  p: openPaste,
  e: () => takeExample(given.examples[0]),
  b: () => setForm('both'),
  1: () => setForm('1'),
  2: () => setForm('2')
}
const listenKeys = () => addEventListener('keydown', e => {
  if (e.ctrlKey || e.metaKey || e.altKey || $('pasting').open || e.target.matches('input:not([type=radio]), textarea, select')) return
  if (!Object.hasOwn(KEYS, e.key)) return
  e.preventDefault()
  KEYS[e.key]()
})

const start = async () => {
  setTheme(0)
  const { library: hash, crates, wasm } = wairokabi.of
  $('made').textContent = `wairokabi.wasm ${hash.slice(0, 16)}…, of the crates ${crates.slice(0, 16)}… (tools/wasm --check)`
  try {
    library = await wairokabi.open(Uint8Array.from(atob(wasm), c => c.charCodeAt(0)))
  } catch (e) {
    const need = 'It needs WebAssembly with 64-bit memory, since it is proved about 64-bit words. Chromium has it.'
    $('empty').replaceChildren(element('h2', '', 'The library does not run in this browser'), element('p', '', e.message), element('p', '', need))
    return
  }
  for (const listen of [listenBar, listenTabs, listenPaste, listenDrop, listenBlocks, listenBytes, listenKeys]) listen()
  document.body.dataset.ready = 'true'
}
start()
