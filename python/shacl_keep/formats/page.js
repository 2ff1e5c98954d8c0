"use strict";
(() => {
  const form = document.getElementById("filter");
  if (!form) {
    return;
  }
  const shape = document.getElementById("shape");
  const text = document.getElementById("text");
  const told = document.getElementById("told");
  const boxes = [...form.querySelectorAll("input[name=severity]")];
  const collator = new Intl.Collator(undefined, { numeric: true });
  const severities = ["Violation", "Warning", "Info"];

  // ---- the rows of each table, with what they are found and sorted by

  const rowsOf = (body) => {
    const [head, ...rows] = body.rows;
    const node = head.textContent.toLowerCase();
    return rows.map((row) => ({
      row,
      head,
      node,
      shape: row.dataset.shape,
      severity: row.dataset.severity,
      text: `${node} ${row.textContent.toLowerCase()}`,
    }));
  };

  const pieceOf = (piece) => {
    const table = piece.querySelector("table");
    return { piece, table, groups: [...table.tBodies].map((body) => ({ body, rows: rowsOf(body) })) };
  };

  const tableOf = (region) => {
    const pieces = [...region.children].map(pieceOf);
    const counts = pieces.map((it) => it.groups.reduce((sum, group) => sum + group.rows.length, 0));
    return { pieces, rows: pieces.flatMap((it) => it.groups.flatMap((group) => group.rows)), size: counts[0] };
  };

  // Rows that stand one behind the other and have the same focus node are a group, below its name.
  const grouped = (rows) => {
    const groups = [];
    for (const it of rows) {
      if (groups.at(-1)?.[0].node === it.node) {
        groups.at(-1).push(it);
      } else {
        groups.push([it]);
      }
    }
    return groups;
  };

  const bodyOf = (rows) => {
    const body = document.createElement("tbody");
    body.append(rows[0].head.cloneNode(true), ...rows.map((it) => it.row));
    return { body, rows };
  };

  // Puts rows in another order into the pieces of their table.
  const layOut = ({ pieces, size }, rows) => {
    pieces.forEach((piece, at) => {
      const before = piece.groups.map((group) => group.body);
      piece.groups = grouped(rows.slice(at * size, (at + 1) * size)).map(bodyOf);
      before.forEach((body) => body.remove());
      piece.table.append(...piece.groups.map((group) => group.body));
    });
  };

  const tables = [...document.querySelectorAll(".wide")].map(tableOf);
  const all = tables.reduce((sum, table) => sum + table.rows.length, 0);

  // ---- the filter: each of these hides what is not found, and tells how many rows are left

  const hide = (element, isHidden) => {
    if (element.hidden !== isHidden) {
      element.hidden = isHidden;
    }
  };

  const showGroup = ({ body, rows }, isFound) => {
    let shown = 0;
    for (const it of rows) {
      const isShown = isFound(it);
      shown += isShown ? 1 : 0;
      hide(it.row, !isShown);
    }
    hide(body, shown === 0);
    return shown;
  };

  const showPiece = ({ piece, groups }, isFound) => {
    const shown = groups.reduce((sum, group) => sum + showGroup(group, isFound), 0);
    hide(piece, shown === 0);
    piece.style.containIntrinsicSize = `auto ${shown * 40}px`;
    return shown;
  };

  const showTable = ({ pieces }, isFound) => {
    const counts = pieces.map((it) => showPiece(it, isFound));
    const first = counts.findIndex((count) => count > 0);
    pieces.forEach((it, at) => it.piece.classList.toggle("first", at === first));
    return counts.reduce((sum, count) => sum + count, 0);
  };

  const show = () => {
    const chosen = new Set(boxes.filter((box) => box.checked).map((box) => box.value));
    const words = text.value.toLowerCase().split(/\s+/).filter(Boolean);
    const isFound = (it) => chosen.has(it.severity) && (shape.value === "" || shape.value === it.shape)
      && words.every((word) => it.text.includes(word));
    const found = tables.reduce((sum, table) => sum + showTable(table, isFound), 0);
    told.textContent = `${found} of ${all} results`;
  };

  // ---- headings that sort: upwards, downwards, and as it was

  const rank = (severity) => {
    const at = severities.indexOf(severity);
    return at < 0 ? severities.length : at;
  };
  const keyOfResult = ({ row, severity }, column) => (
    column === 0 ? `${rank(severity)} ${severity}` : row.cells[column].textContent
  );
  const keyOfBar = (row, column) => row.cells[column].textContent;

  const sorted = (rows, column, direction, keyOf) => {
    if (direction === "none") {
      return rows;
    }
    const sign = direction === "descending" ? -1 : 1;
    const keyed = rows.map((it) => ({ it, key: keyOf(it, column) }));
    return keyed.sort((a, b) => sign * collator.compare(a.key, b.key)).map(({ it }) => it);
  };

  const next = { none: "ascending", ascending: "descending", descending: "none" };

  // Makes a button of each heading of these tables; `sort` is told the column and the direction.
  const addButtons = (parts, sort) => {
    const headings = parts.map((table) => [...table.tHead.querySelectorAll("th")]);
    const turn = (column) => {
      const direction = next[headings[0][column].getAttribute("aria-sort") ?? "none"];
      headings.forEach((row) => row.forEach((heading, at) => {
        heading.setAttribute("aria-sort", at === column ? direction : "none");
      }));
      sort(column, direction);
    };
    headings.forEach((row) => row.forEach((heading, column) => {
      const button = document.createElement("button");
      button.type = "button";
      button.append(...heading.childNodes);
      button.addEventListener("click", () => turn(column));
      heading.append(button);
    }));
  };

  for (const table of tables) {
    addButtons(table.pieces.map((it) => it.table), (column, direction) => {
      layOut(table, sorted(table.rows, column, direction, keyOfResult));
      show();
    });
  }

  for (const bars of document.querySelectorAll(".bars")) {
    const rows = [...bars.tBodies[0].rows];
    addButtons([bars], (column, direction) => {
      bars.tBodies[0].append(...sorted(rows, column, direction, keyOfBar));
    });
  }

  let waiting = 0;
  form.addEventListener("input", () => {
    clearTimeout(waiting);
    waiting = setTimeout(show, 120);
  });
  form.addEventListener("reset", () => setTimeout(show, 0));
  form.addEventListener("submit", (event) => event.preventDefault());

  form.hidden = false;
  show();
})();
