// The editor: line numbers beside the text, and a way to each line.
'use strict';

const part = (id) => document.getElementById(id);

// The numbers move with the text.
function showNumbers() {
  const count = part('text').value.split('\n').length;
  const numbers = part('numbers');
  if (Number(numbers.dataset.count) !== count) {
    numbers.textContent = Array.from({ length: count }, (_, at) => at + 1).join('\n');
    numbers.dataset.count = count;
  }
  numbers.style.transform = `translateY(${-part('text').scrollTop}px)`;
}

function setText(text) {
  part('text').value = text;
  part('text').scrollTop = 0;
  showNumbers();
}

// The place in a line of its character of this number, counted from 1.
const placeOf = (line, column) => [...line].slice(0, column - 1).join('').length;

// Selects a line of the text, or the word that begins at this column of it. Columns count characters from 1.
function goTo(line, column) {
  const box = part('text');
  const lines = box.value.split('\n');
  const text = lines[line - 1] || '';
  const begin = lines.slice(0, line - 1).reduce((sum, each) => sum + each.length + 1, 0);
  const from = column ? placeOf(text, column) : 0;
  const word = column ? /^\S*/.exec(text.slice(from))[0] : text;
  box.focus();
  box.setSelectionRange(begin + from, begin + from + word.length);
  box.scrollTop = Math.max(0, (box.scrollHeight / lines.length) * (line - 4));
  box.scrollIntoView({ block: 'nearest' });
}

part('text').addEventListener('input', showNumbers);
part('text').addEventListener('scroll', showNumbers);
