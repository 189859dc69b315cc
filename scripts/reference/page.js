// Hides what doesn't have all the words in the box.
document.querySelector('nav input').oninput = event => {
  const words = event.target.value.toLowerCase().split(' ')
  for (const item of document.querySelectorAll('section, tbody'))
    item.hidden = !words.every(word => item.textContent.toLowerCase().includes(word))
}
