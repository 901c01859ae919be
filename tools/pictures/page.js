// What the page of tools/report does with script: the heads of tables sort, a square that is touched tells what it lacks, and all is open in print.
for (const table of document.querySelectorAll('table.sorted')) {
  [...table.tHead.rows[0].cells].forEach((head, at) => {
    const button = document.createElement('button');
    const key = (row) => row.cells[at].textContent;
    const compare = head.className ? (a, b) => key(a) - key(b) : (a, b) => key(a).localeCompare(key(b), 'en', { numeric: true });
    button.textContent = head.textContent;
    head.replaceChildren(button);
    button.onclick = () => {
      const order = head.getAttribute('aria-sort') === 'ascending' ? 'descending' : 'ascending';
      const rows = [...table.tBodies[0].rows].sort((a, b) => (order === 'ascending' ? compare(a, b) : compare(b, a)));
      table.querySelectorAll('[aria-sort]').forEach((other) => other.removeAttribute('aria-sort'));
      head.setAttribute('aria-sort', order);
      table.tBodies[0].append(...rows);
    };
  });
}
document.addEventListener('click', ({ target }) => {
  if (target.matches('.squares li')) target.closest('details').querySelector('output').textContent = target.title;
});
let closed = [];
addEventListener('beforeprint', () => {
  closed = [...document.querySelectorAll('details:not([open])')];
  closed.forEach((part) => { part.open = true; });
});
addEventListener('afterprint', () => closed.forEach((part) => { part.open = false; }));
