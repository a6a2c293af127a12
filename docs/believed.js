// believed.html: shows the definitions of one call, or all of them. `#call=read_update` in the address chooses one.
'use strict'
const choice = document.getElementById('call')

const show = () => {
  const call = choice.value
  for (const d of document.querySelectorAll('[data-of]')) d.hidden = call !== '' && !d.dataset.of.split(' ').includes(call)
  for (const a of document.querySelectorAll('article')) a.hidden = !a.querySelector('[data-of]:not([hidden])')
  for (const s of document.querySelectorAll('section')) {
    s.hidden = !s.querySelector('article:not([hidden])')
    document.querySelector(`nav a[href="#${s.querySelector('h2').id}"]`).hidden = s.hidden
  }
}

const named = () => {
  const name = /^#call=(.+)$/.exec(location.hash)
  if (!name) return
  const found = [...choice.options].find(o => o.text.startsWith(`${decodeURIComponent(name[1])}:`))
  if (found) choice.value = found.value
  show()
}

choice.addEventListener('change', show)
addEventListener('hashchange', named)
named()
