// The table of figures, and the bars below it.

const GROUPED = new Intl.NumberFormat("en-US");

/** A number for people: its digits up to a million, and then four of them with a power of ten. */
export function shown(number) {
  if (number < 1e7) return GROUPED.format(number);
  const power = Math.floor(Math.log10(number));
  return `${(number / 10 ** power).toFixed(3)}e${power}`;
}

/** A column of the table: what it shows of a factor whose matrix has n rows and `pairs` entries of A + A' off the diagonal. */
const exact = (name, key) => ({ name, key, of: ({ orders }) => orders[key] });
const COLUMNS = [
  exact("Natural", "natural"),
  exact("Reversed", "reversed"),
  { name: "AMD, at most", key: "bound", of: ({ orders }) => orders.amd?.info },
  exact("AMD, exact", "amd"),
  exact("Yours", "own"),
];
const ROWS = [
  { name: "Entries below the diagonal", key: "lnz", of: (told) => told.lnz },
  { name: "Fill", key: "filled", of: (told, { pairs }) => Math.max(told.lnz - pairs / 2, 0) },
  { name: "Flops of LDL'", key: "flops", of: (told) => told.lnz + 2 * told.nMultSubsLdl },
  { name: "Multiply-subtracts of LU", key: "nMultSubsLu", of: (told) => told.nMultSubsLu },
  { name: "Largest front", key: "dMax", of: (told) => told.dMax },
  { name: "Memory in doubles", key: "memory", of: (told, { n }) => told.lnz + n },
];

function element(name, text, data = {}) {
  const made = document.createElement(name);
  made.textContent = text;
  Object.assign(made.dataset, data);
  return made;
}

export function fillTable(table, summary) {
  const columns = COLUMNS.filter((column) => column.of(summary));
  const head = document.createElement("tr");
  head.append(element("th", ""), ...columns.map((column) => Object.assign(element("th", column.name), { scope: "col" })));
  const rows = ROWS.map((row) => {
    const line = document.createElement("tr");
    line.append(Object.assign(element("th", row.name), { scope: "row" }));
    for (const column of columns) {
      const value = row.of(column.of(summary), summary);
      const cell = element("td", shown(value), { figure: row.key, order: column.key, value: String(value) });
      cell.title = GROUPED.format(value);
      line.append(cell);
    }
    return line;
  });
  table.tHead.replaceChildren(head);
  table.tBodies[0].replaceChildren(...rows);
}

/** Bars for each figure, as long as the numbers. The table says the same in words. */
export function fillBars(place, summary) {
  const columns = COLUMNS.filter((column) => column.of(summary));
  const groups = ROWS.map((row) => {
    const values = columns.map((column) => row.of(column.of(summary), summary));
    const most = Math.max(...values, 1);
    const group = document.createElement("div");
    group.append(element("h3", row.name));
    columns.forEach((column, k) => {
      const bar = Object.assign(document.createElement("div"), { className: `bar ${column.key}` });
      Object.assign(bar.dataset, { figure: row.key, order: column.key });
      const stripe = document.createElement("i");
      stripe.style.width = `${(100 * values[k]) / most}%`;
      bar.append(element("span", column.name), stripe);
      group.append(bar);
    });
    return group;
  });
  place.replaceChildren(...groups);
}
