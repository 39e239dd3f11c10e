"use strict";

/** Rows, of which some are asked for at a time.
 *  @template Row @typedef {{length: number, slice: (first: number, behind: number) => Row[]}} Rows */

/** @param {number} length @returns {Rows<number>} the numbers from 0 on, as many */
function upTo(length) {
  return { length, slice: (first, behind) => Array.from({ length: Math.max(0, Math.min(behind, length) - first) }, (_, at) => first + at) };
}

/** A table or list that shows a page of its rows at a time.
 *  @template Row */
class Paged {
  /** @param {HTMLElement} place @param {string} name @param {number} size rows of a page @param {(rows: Row[]) => Node} draw */
  constructor(place, name, size, draw) {
    this.size = size;
    this.draw = draw;
    this.page = 0;
    this.search = {}; // the last one
    this.isLooking = false; // whether it has not ended
    /** @type {Rows<Row>} */
    this.rows = { length: 0, slice: () => [] };
    this.bar = made("div", { className: "bar", role: "group" });
    this.bar.setAttribute("aria-label", `Pages of ${name}`);
    this.back = made("button", { type: "button", onclick: () => this.go(this.page - 1) }, "← Earlier");
    this.on = made("button", { type: "button", onclick: () => this.go(this.page + 1) }, "Later →");
    this.says = made("span");
    this.says.setAttribute("aria-live", "polite");
    this.bar.append(this.back, this.on, this.says);
    this.body = made("div", { className: "scroll", tabIndex: 0, role: "region" });
    this.body.setAttribute("aria-label", name);
    place.append(this.bar, this.body);
  }

  /** @param {Rows<Row>} rows */
  set(rows) {
    this.search = {};
    this.isLooking = false;
    this.rows = rows;
    this.go(0);
  }

  /** Shows those of some numbers that are wanted: what is found soon at once, and the others later.
   *  @param {number} length @param {(number: number) => boolean} isWanted @param {boolean} isGrowing whether the page is to stay */
  async find(length, isWanted, isGrowing) {
    const search = {};
    this.search = search;
    this.isLooking = !isGrowing;
    const found = /** @type {any[]} */ ([]);
    let isFirst = !isGrowing;
    const show = () => {
      if (!isFirst) return this.grow(found);
      [this.rows, isFirst] = [found, false];
      return this.go(0);
    };
    const goOn = () => {
      if (this.search !== search) return false;
      if (!isGrowing) show();
      return true;
    };
    if (!await inSlices(length, (number) => { if (isWanted(number)) found.push(number); }, goOn)) return;
    this.isLooking = false;
    show();
  }

  /** More rows: the page stays, and is drawn anew only where it shows other ones.
   *  @param {Rows<Row>} rows */
  grow(rows) {
    const before = this.shown;
    const first = this.page * this.size;
    const after = rows.slice(first, first + this.size);
    const isSame = before.length === this.size && before.every((row, at) => row === after[at]);
    this.rows = rows;
    if (isSame) this.say();
    else this.go(this.page);
  }

  /** A field for a text that the rows are to have.
   *  @param {(text: string) => void} change */
  addSearch(change) {
    const input = made("input", { type: "search", oninput: () => change(input.value.trim().toLowerCase()) });
    this.bar.prepend(made("label", {}, "text ", input));
  }

  /** A button that saves the rows.
   *  @param {string} name @param {string[]} heads @param {(row: Row) => unknown[][]} lines those of a row */
  addSave(name, heads, lines) {
    const write = () => save(csvOf([heads, ...this.rows.slice(0, this.rows.length).flatMap(lines)]), "text/csv", `${data.name}-${name}.csv`);
    this.bar.append(made("button", { type: "button", className: "save", onclick: write }, "Save as CSV"));
  }

  /** @param {number} page */
  go(page) {
    this.page = clamp(page, 0, this.pages - 1);
    this.say();
    this.body.replaceChildren(this.draw(this.shown));
  }

  /** @returns {number} */
  get pages() {
    return Math.max(1, Math.ceil(this.rows.length / this.size));
  }

  /** @returns {Row[]} */
  get shown() {
    return this.rows.slice(this.page * this.size, (this.page + 1) * this.size);
  }

  say() {
    const first = this.page * this.size;
    const last = Math.min(first + this.size, this.rows.length);
    this.back.disabled = this.page === 0;
    this.on.disabled = this.page === this.pages - 1;
    const says = last ? `${count(first + 1)} to ${count(last)} of ${count(this.rows.length)}` : "nothing of this kind";
    this.says.textContent = this.isLooking ? `${last ? `${says} so far` : ""}, looking on` : says;
  }
}

/** @param {string} caption @param {string[]} heads @param {(string | Node)[][]} rows @returns {HTMLElement} */
function table(caption, heads, rows) {
  const cells = (/** @type {(string | Node)[]} */ row) => row.map((cell) => (cell instanceof Node && cell.nodeName === "TD" ? cell : made("td", {}, cell)));
  return made(
    "table", {},
    made("caption", {}, caption),
    made("thead", {}, made("tr", {}, ...heads.map((head) => made("th", { scope: "col" }, head)))),
    made("tbody", {}, ...rows.map((row) => made("tr", {}, ...cells(row)))),
  );
}

/** Gives a select these texts, of which "" stands for all; what is chosen stays.
 *  @param {HTMLSelectElement} select @param {string[]} texts */
function setChoices(select, texts) {
  if (select.options.length === texts.length + 1) return;
  const was = select.value;
  select.replaceChildren(...["", ...texts].map((value) => made("option", { value }, value || "all")));
  select.value = was;
}

/** @param {string} name @param {string[][]} options each with its value @param {(value: string) => void} change @returns {[HTMLElement,
 *  HTMLSelectElement]} */
function choice(name, options, change) {
  const select = made("select", { onchange: () => change(select.value) });
  select.append(...options.map(([value, text]) => made("option", { value }, text)));
  return [made("label", {}, `${name} `, select), select];
}

/** The text of a file of comma-separated values (RFC 4180).
 *  @param {unknown[][]} rows @returns {string} */
function csvOf(rows) {
  const field = (/** @type {string} */ text) => (/[",\r\n]/.test(text) ? `"${text.replaceAll('"', '""')}"` : text);
  return rows.map((row) => `${row.map((cell) => field(String(cell))).join(",")}\r\n`).join("");
}

/** @param {number} fault @returns {string} */
function faultText(fault) {
  const kind = data.faults.kind[fault];
  const lane = data.faults.lane[fault];
  const more = data.faults.more[fault];
  if (kind === "slip" || kind === "relock") {
    const isAligned = data.alignments[data.faults.epoch[fault] + 1];
    const what = kind === "slip" ? `slip of ${LANES[lane]}, found` : "alignment dropped, and searched again";
    return `${what} at bit ${count(more[0])}${kind === "slip" ? " of it" : ""}, ${isAligned ? "aligned again" : "not aligned again"}`;
  }
  if (kind === "symbols") return `symbols: ${more[0]} of 96 characters`;
  if (kind === "mended") return `mended: ${data.blocks[more[0]]}, bit ${more[1]}`;
  if (kind === "lost") return `lost: ${data.blocks[more[0]]}`;
  return lane >= 0 ? `${kind} on ${LANES[lane]}` : kind;
}

/** @param {number} fault @returns {string} */
function placeText(fault) {
  if (data.faults.kind[fault] !== "code" || data.faults.frame[fault] < 0) return "";
  const [frame, x] = [data.faults.frame[fault], data.faults.x[fault]];
  const name = viewer.pictures[viewer.pictureOf[frame]].name;
  return x < 0 ? `${name}, row ${rowOf(fault)}` : `${name}, row ${rowOf(fault)}, pixel ${x}`;
}

const FAULT_HEADS = ["line", "fault", "lane", "alignment", "column", "text", "block", "bit", "characters", "place", "frame", "row", "pixel", "field"];

/** @param {number} fault @returns {unknown[]} */
function faultFields(fault) {
  const [kind, lane, more] = [data.faults.kind[fault], data.faults.lane[fault], data.faults.more[fault]];
  const [frame, x] = [data.faults.frame[fault], data.faults.x[fault]];
  const isPixel = kind === "code" && frame >= 0;
  const picture = isPixel ? viewer.pictures[viewer.pictureOf[frame]] : null;
  const hasBlock = kind === "mended" || kind === "lost";
  return [
    data.faults.line[fault], kind, lane < 0 ? "" : lane, data.alignments[data.faults.epoch[fault]], data.faults.column[fault], faultText(fault),
    hasBlock ? data.blocks[more[0]] : "", kind === "mended" ? more[1] : "", kind === "symbols" ? more[0] : "", kind === "slip" || kind === "relock" ? more[0] : "",
    picture?.whole ? picture.label : "", isPixel ? rowOf(fault) : "", isPixel && x >= 0 ? x : "", isPixel ? sideOf(frame) : "",
  ];
}

/** @param {number} fault @returns {string | Node} */
function faultPlace(fault) {
  const text = placeText(fault);
  if (!text || data.faults.x[fault] < 0) return text;
  const show = async () => { await showMark(fault); by("pictures").scrollIntoView(); by("picture").focus({ preventScroll: true }); };
  return made("button", { type: "button", className: "count", onclick: show }, text);
}

/** The faults, with each burst in place of its first fault and of all its others.
 *  @returns {(number | Burst)[]} */
function foldedFaults() {
  /** @type {Burst[]} */
  const burstOf = [];
  for (const burst of data.bursts) for (const fault of burst.faults) burstOf[fault] = burst;
  /** @type {(number | Burst)[]} */
  const found = [];
  for (let fault = 0; fault < data.faults.kind.length; fault++) {
    const burst = burstOf[fault];
    if (!burst) found.push(fault);
    else if (burst.faults[0] === fault) found.push(burst);
  }
  return found;
}

/** The faults in rows; the characters at each are shown where they are told.
 *  @param {string} caption @param {(number | Burst)[]} rows @returns {HTMLElement} */
function faultTable(caption, rows) {
  const heads = ["fault", "column", "picture", "listing", ...(data.faults.characters ? ["characters"] : [])];
  return table(caption, heads, rows.map((row) => (typeof row === "number" ? faultCells(row) : burstCells(row)).slice(0, heads.length)));
}

/** @param {number} at @returns {HTMLElement} */
function columnButton(at) {
  const to = () => { pointTo(at); by("timeline").scrollIntoView(); by("time").focus({ preventScroll: true }); };
  return made("button", { type: "button", className: "count", onclick: to }, columnText(at, true));
}

/** @param {number} fault @returns {(string | Node)[]} */
function faultCells(fault) {
  const characters = made("td", { className: "digits" }, data.faults.characters?.[fault] ?? "");
  return [faultText(fault), columnButton(data.faults.at[fault]), faultPlace(fault), lineLink(data.faults.line[fault]), characters];
}

/** A burst in a row, under which its faults are folded; they are drawn when they are first opened.
 *  @param {Burst} burst @returns {(string | Node)[]} */
function burstCells(burst) {
  const says = `a burst of ${count(burst.columns)} columns at ${columnText(burst.at, true)}: ${count(burst.faults.length)} faults`;
  const details = made("details", {}, made("summary", {}, says));
  details.addEventListener("toggle", () => {
    /** @type {Paged<number>} */
    const paged = new Paged(details, "the burst", 20, (faults) => faultTable("The faults of the burst", faults));
    paged.set(burst.faults);
  }, { once: true });
  return [made("td", {}, details), columnButton(burst.at), "", lineLink(data.faults.line[burst.faults[0]]), ""];
}

/* The rules: those of a verdict, or with a text, and the columns as places of the timeline. */
function startRules() {
  const place = by("rule-table");
  if (!place) return;
  const rows = /** @type {NodeListOf<HTMLElement>} */ (place.querySelectorAll("tbody tr"));
  const wanted = { verdict: "", text: "" };
  const fill = () => {
    for (const row of rows) {
      const isWanted = (!wanted.verdict || row.dataset.verdict === wanted.verdict) && (row.textContent ?? "").toLowerCase().includes(wanted.text);
      row.hidden = !isWanted;
    }
  };
  const verdicts = [["", "all"], ...["fail", "damaged", "not judged", "pass"].map((one) => [one, one])];
  const [label] = choice("verdict", verdicts, (value) => { wanted.verdict = value; fill(); });
  const input = made("input", { type: "search", oninput: () => { wanted.text = input.value.trim().toLowerCase(); fill(); } });
  const bar = made("div", { className: "bar", role: "group" }, label, made("label", {}, "text ", input));
  bar.setAttribute("aria-label", "Which rules");
  place.prepend(bar);
  for (const button of /** @type {NodeListOf<HTMLElement>} */ (place.querySelectorAll("button[data-column]"))) {
    button.onclick = () => { pointTo(Number(button.dataset.column)); by("timeline").scrollIntoView(); by("time").focus({ preventScroll: true }); };
  }
}

function startFaults() {
  const place = by("fault-table");
  if (!place) return;
  const wanted = { kind: "", lane: "", text: "" };
  /** @type {Paged<number | Burst>} */
  const paged = new Paged(place, "faults", 20, (rows) => faultTable("The faults in the order of the listing", rows));
  /* No text is kept: to keep those of many faults takes longer than to make them again. */
  const hasText = (/** @type {number} */ fault) =>
    `${faultText(fault)} ${columnText(data.faults.at[fault], true)} ${placeText(fault).toLowerCase()} line ${data.faults.line[fault]}`.includes(wanted.text);
  const isWanted = (/** @type {number} */ fault) =>
    (!wanted.kind || data.faults.kind[fault] === wanted.kind) && (wanted.lane === "" || data.faults.lane[fault] === Number(wanted.lane))
    && (!wanted.text || hasText(fault));
  const isAll = () => !wanted.kind && wanted.lane === "" && !wanted.text;
  const fill = () => (isAll() ? paged.set(foldedFaults()) : paged.find(data.faults.kind.length, isWanted, false));
  paged.addSearch((text) => { wanted.text = text; fill(); });
  paged.addSave("faults", FAULT_HEADS, (row) => (typeof row === "number" ? [row] : row.faults).map(faultFields));
  const [kindLabel, kind] = choice("kind", [["", "all"]], (value) => { wanted.kind = value; fill(); });
  const [laneLabel, lane] = choice("lane", [["", "all"], ...LANES.map((one, number) => [String(number), one]), ["-1", "of no lane"]], (value) => { wanted.lane = value; fill(); });
  paged.bar.prepend(kindLabel, laneLabel);
  by("faults").addEventListener("click", (event) => {
    const button = event.target instanceof Element && event.target.closest(".count[data-kind]");
    if (!(button instanceof HTMLElement)) return;
    kind.value = wanted.kind = button.dataset.kind ?? "";
    lane.value = wanted.lane = button.dataset.lane ?? "";
    fill();
    place.scrollIntoView();
    paged.says.focus();
  });
  const grow = () => {
    setChoices(kind, [...new Set(data.faults.kind)]);
    if (isAll()) paged.grow(foldedFaults());
    else paged.find(data.faults.kind.length, isWanted, true);
  };
  grow();
  growing.push(grow);
  viewer.changed.push(() => paged.go(paged.page));
}

/** The header and the four bodies of a packet, hexadecimal digits, from its line of the listing.
 *  @param {number} number @returns {string[]} */
function packetBytes(number) {
  return (data.lines.at(data.packets.line[number] - 1) ?? "").split(" ").slice(1, 6);
}

const PACKET_HEADS = () => [
  "line", "packet", "alignment", "column", "text", "faults", "header", ...data.blocks.slice(0, 4), ...data.blocks.map((block) => `${block} is`), "characters",
];

/** @param {number} number @returns {unknown[]} */
function packetFields(number) {
  const packets = data.packets;
  const epoch = epochOf(packets.at[number]);
  return [
    packets.line[number], packets.names[number], data.alignments[epoch], packets.at[number] - data.epochs[epoch], data.words[packets.words[number]],
    packets.faults[number].join("; "), ...packetBytes(number), ...packets.verdicts[number], packets.symbols[number],
  ];
}

function startPackets() {
  const place = by("packet-table");
  if (!place) return;
  const packets = data.packets;
  const verdict = (/** @type {number} */ number) => {
    const told = packets.verdicts[number];
    const bad = data.blocks.map((block, one) => [block, told[one]]).filter(([, says]) => says !== "clean");
    const parts = bad.map(([block, says]) => made("div", { className: says === "lost" ? "bad" : "" }, `${block}: ${says}`));
    if (packets.symbols[number]) parts.push(made("div", {}, `${packets.symbols[number]} foreign characters`));
    return made("td", {}, ...(parts.length ? parts : ["all clean"]));
  };
  const bytes = (/** @type {number} */ number) => made("td", { className: "digits" }, ...packetBytes(number).map((part, one) => {
    const isLost = packets.verdicts[number][(one + 4) % 5] === "lost";
    return made("div", { className: isLost ? "bad" : "" }, part.replace(/..(?=.)/g, "$& "));
  }));
  /** @type {Paged<number>} */
  const paged = new Paged(place, "packets", 20, (numbers) => table("The packets in the order of the listing", ["packet", "column", "what it says", "header and bodies", "blocks", "listing"], numbers.map((number) => {
    const to = () => { pointTo(packets.at[number]); by("timeline").scrollIntoView(); by("time").focus({ preventScroll: true }); };
    const words = made("td", {}, data.words[packets.words[number]]);
    for (const fault of packets.faults[number]) words.append(made("div", { className: data.limits.includes(fault.split(" ")[0]) ? "" : "bad" }, fault));
    return [packets.names[number], made("button", { type: "button", className: "count", onclick: to }, columnText(packets.at[number])), words, bytes(number), verdict(number), lineLink(packets.line[number])];
  })));
  const isHurt = (/** @type {number} */ number) => packets.symbols[number] > 0 || packets.faults[number].length > 0 || packets.verdicts[number].some((one) => one !== "clean");
  const wanted = { name: "", hurt: "", text: "", digits: "" };
  const hasText = (/** @type {number} */ number) => {
    const faults = packets.faults[number].join(" ");
    const text = `${packets.names[number]} ${columnText(packets.at[number])} ${data.words[packets.words[number]]} ${faults} line ${packets.line[number]}`;
    return text.toLowerCase().includes(wanted.text) || (wanted.digits !== "" && packetBytes(number).some((part) => part.includes(wanted.digits)));
  };
  const isWanted = (/** @type {number} */ number) =>
    (!wanted.name || packets.names[number] === wanted.name) && (!wanted.hurt || isHurt(number)) && (!wanted.text || hasText(number));
  const isAll = () => !wanted.name && !wanted.hurt && !wanted.text;
  const fill = () => (isAll() ? paged.set(upTo(packets.at.length)) : paged.find(packets.at.length, isWanted, false));
  paged.addSearch((text) => {
    wanted.text = text;
    wanted.digits = /^[0-9a-f ]+$/.test(text) ? text.replaceAll(" ", "") : "";
    fill();
  });
  paged.addSave("packets", PACKET_HEADS(), (number) => [packetFields(number)]);
  const [kind, kinds] = choice("kind", [["", "all"]], (value) => { wanted.name = value; fill(); });
  const [state] = choice("blocks", [["", "all"], ["hurt", "not all clean"]], (value) => { wanted.hurt = value; fill(); });
  paged.bar.prepend(kind, state);
  const grow = () => {
    setChoices(kinds, [...new Set(packets.names)]);
    if (isAll()) paged.grow(upTo(packets.at.length));
    else paged.find(packets.at.length, isWanted, true);
  };
  grow();
  growing.push(grow);
}
